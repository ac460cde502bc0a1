//! The benchmark: the engine and the second implementation on the same inputs in one run, as ratios
//! of user time.
//!
//! `benchmark [--instructions] [WORD]` prints a table; with a WORD, only the inputs whose names
//! contain it. With --instructions it adds ratios of instructions, counted by callgrind, where
//! valgrind is there and a call is short.

use std::cell::RefCell;
use std::hint::black_box;
use std::path::{Path, PathBuf};
use std::process::Command;
use std::time::Duration;
use twin::avoiders::{first_avoider, last_avoider, next_avoider, Effort};
use twin::clock::user_time;
use twin::counting::{count, need, plain};
use twin::engine;
use twin::inputs::{unpatterned, Pair};
use twin::inversions::{self, count_by_inversions, figures};
use twin::judging::judge_texts;
use twin::list_inputs::NAMED;
use twin::model::{LONGEST, WITNESS};
use twin::notation::{read_patterns, read_scheme, write_patterns, write_scheme};
use twin::published::published;
use twin::set_inputs::{E_1234, PAIRS};
use twin::witness::judge_texts_on_page;
use twin::worst::*;

#[derive(Clone, Copy)]
enum Work {
    Judge,
    /// judging with a page for the witness
    Witness,
    Count(usize),
    Plain(usize),
    /// counting by inversions
    Inversions(usize),
    /// the first avoider of a length
    First(usize),
    /// the next avoider, so many times at most
    Nexts(usize),
}

struct Input<'a> {
    name: &'a str,
    work: Work,
    patterns: Vec<u8>,
    /// the scheme's text, or the permutation to start from
    second: Vec<u8>,
    /// the ratio that is not to be passed
    target: Option<f64>,
    /// the table of a count by inversions, made once: it has up to 50 megabytes, and new memory
    /// takes the system longer than the count takes. Each call leaves it at 0.
    table: RefCell<Vec<u64>>,
}

/// The answer as a number: the count, how many figures or avoiders were given, or 0 and the number
/// of the refusal; the page, which only a witness or an avoider is written to; and the figures of a
/// count by inversions.
type Answer = (u64, [u8; WITNESS], Vec<u64>);

/// A call of the engine or of the second implementation, on an input.
type Call = fn(&Input) -> Option<Answer>;

fn by_engine(input: &Input) -> Option<Answer> {
    let (patterns, scheme) = (&input.patterns[..], &input.second[..]);
    let (mut page, mut results) = ([0; WITNESS], results(input));
    let number = match input.work {
        Work::Judge => Some(engine::judge(patterns, scheme) as u64),
        Work::Witness => {
            let number = |answer: Result<u64, u32>| answer.map_or_else(|r| r as u64, |_| 0);
            engine::JUDGE_ON_PAGE.map(|f| number(f(patterns, scheme, &mut page)))
        }
        Work::Count(n) => {
            let mut cells = table(input, n);
            engine::COUNT.map(|f| f(patterns, scheme, n, &mut cells).unwrap_or_else(|r| r as u64))
        }
        Work::Plain(n) => engine::PLAIN.map(|f| f(patterns, scheme, n).unwrap_or_else(|r| r as u64)),
        Work::Inversions(n) => {
            let cells = &mut input.table.borrow_mut();
            engine::INVERSIONS.map(|f| f(patterns, scheme, n, cells, &mut results).unwrap_or_else(|r| r as u64))
        }
        Work::First(n) => engine::FIRST.map(|f| f(patterns, n, &mut page).unwrap_or_else(|r| r as u64)),
        Work::Nexts(times) => engine::NEXT.map(|f| nexts(scheme, times, &mut page, |word, page| f(patterns, word, page) == Ok(1))),
    };
    number.map(|number| (number, page, results))
}

fn by_twin(input: &Input) -> Option<Answer> {
    let (patterns, scheme) = (&input.patterns[..], &input.second[..]);
    let (mut page, mut results) = ([0; WITNESS], results(input));
    let lists = || read_patterns(patterns).and_then(|p| Ok((p, read_scheme(scheme)?)));
    let answer = match input.work {
        Work::Judge => judge_texts(patterns, scheme).map(|_| 0),
        Work::Witness => judge_texts_on_page(patterns, scheme, &mut page).map(|_| 0),
        Work::Count(n) => lists().and_then(|(p, s)| count(&p, &s, n, &mut table(input, n))),
        Work::Plain(n) => lists().and_then(|(p, s)| plain(&p, &s, n)),
        Work::Inversions(n) => {
            let cells = &mut input.table.borrow_mut();
            let by_inversions = |(p, s)| count_by_inversions(&p, &s, n, cells, &mut results);
            lists().and_then(by_inversions).map(|figures| figures as u64)
        }
        Work::First(n) => first_avoider(patterns, n, &mut page).map(u64::from),
        Work::Nexts(times) => Ok(nexts(scheme, times, &mut page, |word, page| next_avoider(patterns, word, page) == Ok(true))),
    };
    Some((answer.unwrap_or_else(|r| r.0 as u64), page, results))
}

/// Follows next from a permutation, so many times at most: how many were given. The last of them
/// stands on the page.
fn nexts(start: &[u8], times: usize, page: &mut [u8], next: impl Fn(&[u8], &mut [u8]) -> bool) -> u64 {
    let mut word = start.to_vec();
    for given in 0..times {
        if !next(&word, page) {
            return given as u64;
        }
        word.copy_from_slice(&page[..start.len()]);
    }
    times as u64
}

fn table(input: &Input, n: usize) -> Vec<u64> {
    read_scheme(&input.second).map_or(vec![], |s| vec![0; need(&s, n) as usize])
}

/// The table of a count by inversions, and none for other work.
fn table_by_inversions(work: Work, scheme: &[u8]) -> Vec<u64> {
    match (work, read_scheme(scheme)) {
        (Work::Inversions(n), Ok(scheme)) => vec![0; inversions::need(&scheme, n) as usize],
        _ => vec![],
    }
}

/// Room for the figures of a count by inversions, and none for other work.
fn results(input: &Input) -> Vec<u64> {
    match input.work {
        Work::Inversions(n) => vec![0; figures(n)],
        _ => vec![],
    }
}

/// Makes the inputs whose names are wanted, one after the other.
fn inputs(wanted: impl Fn(&str) -> bool, each: impl Fn(&Input)) {
    let add = |name: &str, target, work, make: &dyn Fn() -> (Vec<u8>, Vec<u8>)| {
        if wanted(name) {
            let (patterns, second) = make();
            let table = RefCell::new(table_by_inversions(work, &second));
            each(&Input { name, work, patterns, second, target, table });
        }
    };
    let texts = |pair: Pair| (write_patterns(&pair.patterns), write_scheme(&pair.entries));
    let of = |set: &'static str| {
        move || {
            let all = published();
            let p = all.iter().filter(|p| p.patterns == set).max_by_key(|p| p.scheme.len()).expect("a published set");
            (p.patterns.as_bytes().to_vec(), p.scheme.as_bytes().to_vec())
        }
    };
    let padded = |(patterns, mut scheme): (Vec<u8>, Vec<u8>)| {
        scheme.resize(scheme.len().max(32_768), b' ');
        (patterns, scheme)
    };
    let set = || b"{123}".to_vec();
    let judge = Work::Judge;

    add("{123}, 7 entries", None, judge, &of("{123}"));
    add("{1423,1432}, 4 entries", None, judge, &of("{1423,1432}"));
    add("{1234}, 12 entries", None, judge, &of("{1234}"));
    add("{2143,2341}, 70 entries", None, judge, &of("{2143,2341}"));
    add("321-hexagon, 21,594 compared cells", None, judge, &of("{321,46718235,56718234,46781235,56781234}"));
    add("no patterns, 128 entries", None, judge, &|| texts(unpatterned(128)));

    let text = Some(4.0);
    add("text: 2,340 tiny entries", text, judge, &|| (set(), format!("{{{}}}", vec!["(123,∅,∅)"; 2_340].join(",")).into_bytes()));
    add("text: 128 long entries", text, judge, &|| padded(texts(long_text())));
    add("text: all spaces", text, judge, &|| (set(), vec![b' '; 32_768]));
    add("text: spaces around a scheme", text, judge, &|| padded(of("{123}")()));
    add("text: one run of digits", text, judge, &|| (set(), format!("{{({},∅,∅)}}", "1".repeat(32_756)).into_bytes()));
    add("text: one entry of 1,636 vectors", text, judge, &|| {
        (set(), format!("{{(123456,{{{}}},{{1}})}}", vec!["⟨1,1,1,1,1,1,1⟩"; 1_636].join(",")).into_bytes())
    });

    let gaps = Some(4.0);
    add("gaps: 768 of total 8, patterns of length 4", gaps, judge, &|| texts(gap_vectors(4, 96, 1)));
    add("gaps: 768 of total 8, patterns of length 5", gaps, judge, &|| texts(gap_vectors(5, 96, 1)));
    add("gaps: 64 of total 8, patterns of length 6", gaps, judge, &|| texts(gap_vectors(6, 8, 1)));
    add("gaps: 2 of total 8, emptiness shows late", gaps, judge, &|| texts(late_gap_vectors()));

    let worst = Some(2.5);
    add("worst: random, beginning with 1", worst, judge, &|| texts(true_deletions(beginning_low(3), 100)));
    add("worst: 1234, then any order", worst, judge, &|| texts(true_deletions(beginning_with(&[1, 2, 3, 4]), 100)));
    add("worst: 1357, then any order", worst, judge, &|| texts(true_deletions(beginning_with(&[1, 3, 5, 7]), 100)));
    add("worst: 1827, then any order", worst, judge, &|| texts(true_deletions(beginning_with(&[1, 8, 2, 7]), 100)));
    add("worst: any order, then 1234", worst, judge, &|| texts(true_deletions(ending_with(&[1, 2, 3, 4]), 100)));
    add("worst: any order, then 5678", worst, judge, &|| texts(true_deletions(ending_with(&[5, 6, 7, 8]), 100)));
    add("worst: any order, then 3456", worst, judge, &|| texts(true_deletions(ending_with(&[3, 4, 5, 6]), 100)));
    add("worst: a live gap beside true deletions", worst, judge, &|| texts(with_live_gap(true_deletions(beginning_low(3), 100))));
    add("worst: long set, short basis", worst, judge, &|| texts(short_basis()));
    add("worst: own basis, 412,969 compared cells", worst, judge, &|| texts(own_basis()));
    let three = |head: &[u8]| texts(true_deletions_of(3, beginning_with(head), 100));
    add("worst: 1234, then any order, three together", worst, judge, &|| three(&[1, 2, 3, 4]));
    add("worst: 1827, then any order, three together", worst, judge, &|| three(&[1, 8, 2, 7]));
    add("worst: own basis, three together", worst, judge, &|| texts(own_basis_together()));

    let refused = "{(ε,∅,∅),(1,∅,∅),(12,{⟨0,0,1⟩},{1}),(21,∅,{1})}";
    add("witness: {123}, 4 entries", None, Work::Witness, &|| (set(), refused.as_bytes().to_vec()));
    add("witness: long prefix, lost at total 7", worst, Work::Witness, &|| texts(late_witness()));
    add("witness: the worst file with 1234", worst, Work::Witness, &|| texts(true_deletions(beginning_with(&[1, 2, 3, 4]), 100)));

    add("count: {2143,2341}, n = 20", Some(2.5), Work::Count(20), &of("{2143,2341}"));
    add("count: 321-hexagon, n = 20", Some(2.5), Work::Count(20), &of("{321,46718235,56718234,46781235,56781234}"));
    add("count: no patterns, 128 entries, n = 20", Some(2.5), Work::Count(20), &|| texts(unpatterned(128)));
    let both = |set: &str, scheme: &str| (set.as_bytes().to_vec(), scheme.as_bytes().to_vec());
    let (two, count) = (Some(2.5), Work::Count(20));
    add("count: {1234} as in 004, two together, n = 20", two, count, &|| both("{1234}", E_1234));
    add("count: no patterns, two together, n = 20", two, count, &|| both("∅", PAIRS));
    let to_12 = Work::Inversions(12);
    add("by inversions: {2143,2341}, n = 12", Some(2.5), to_12, &of("{2143,2341}"));
    add("by inversions: {1234} as in 004, two together, n = 12", two, to_12, &|| both("{1234}", E_1234));
    add("by inversions: no patterns, 128 entries, n = 10", Some(2.5), Work::Inversions(10), &|| texts(unpatterned(128)));
    add("plain: {123}, n = 9", Some(3.0), Work::Plain(9), &of("{123}"));
    add("plain: {1234}, n = 9", Some(3.0), Work::Plain(9), &of("{1234}"));
    add("plain: {2143,2341}, n = 9", Some(3.0), Work::Plain(9), &of("{2143,2341}"));

    for set in NAMED {
        let texts = |start: Vec<u8>| (set.as_bytes().to_vec(), start);
        add(&format!("first: {set}, n = 20"), Some(2.5), Work::First(LONGEST), &|| texts(vec![]));
        if let Some((first, last)) = ends(set) {
            add(&format!("ten nexts: {set}, n = 20"), Some(2.5), Work::Nexts(10), &|| texts(first.clone()));
            add(&format!("next of the last: {set}, n = 20"), Some(2.5), Work::Nexts(1), &|| texts(last.clone()));
        }
    }
}

/// The first and the last avoider of length 20, if there are any.
fn ends(set: &str) -> Option<(Vec<u8>, Vec<u8>)> {
    let patterns = read_patterns(set.as_bytes()).expect("a set");
    let mut first = [0; LONGEST];
    first_avoider(set.as_bytes(), LONGEST, &mut first).expect("a set and a length").then_some(())?;
    let last = last_avoider(patterns.items(), LONGEST, &mut Effort::of(u64::MAX)).ok()??;
    Some((first.to_vec(), last.to_vec()))
}

fn main() {
    let words: Vec<String> = std::env::args().skip(1).collect();
    if words.first().is_some_and(|w| w == "repeat") {
        return repeat(&words[1..]);
    }
    let instructions = words.iter().any(|w| w == "--instructions");
    let word = words.iter().find(|w| !w.starts_with("--")).cloned().unwrap_or_default();
    let columns = if instructions { " instructions |" } else { "" };
    println!("| input | answer | engine | twin | ratio |{columns} target |");
    println!("|---|---|---|---|---|{}---|", if instructions { "---|" } else { "" });
    inputs(|name| name.contains(&word), |input| row(input, instructions));
}

fn row(input: &Input, instructions: bool) {
    let answer = by_twin(input).expect("the second implementation does all work");
    let found = by_engine(input);
    assert!(found.is_none() || found.as_ref() == Some(&answer), "{}: the engine says {found:?}, the second implementation {answer:?}", input.name);
    let said = match (input.work, answer.0) {
        (Work::Judge | Work::Witness, 0) => "accepted".to_string(),
        (Work::Judge | Work::Witness, number) => format!("refused {number}"),
        (Work::First(_) | Work::Nexts(_), 0) => "nothing".to_string(),
        (Work::First(_) | Work::Nexts(_), number) => format!("{number} given"),
        (Work::Inversions(_), number) => format!("{number} figures, together {}", answer.2.iter().sum::<u64>()),
        (_, count) => count.to_string(),
    };
    let target = input.target.map_or("-".into(), |t| format!("{t}"));
    let (engine, twin) = match found {
        Some(_) => times(input),
        None => (None, Some(time(input, by_twin, repeats(input, by_twin)))),
    };
    let ratio = engine.zip(twin).map(|(e, t)| e / t);
    let missed = matches!((ratio, input.target), (Some(r), Some(t)) if r > t);
    let ratio = ratio.map_or("-".into(), |r| format!("{r:.2}{}", if missed { " (missed)" } else { "" }));
    let counted = if instructions { format!(" {} |", instruction_ratio(input, engine).map_or("-".into(), |r| format!("{r:.2}"))) } else { String::new() };
    println!("| {} | {said} | {} | {} | {ratio} |{counted} {target} |", input.name, shown(engine), shown(twin));
}

fn shown(seconds: Option<f64>) -> String {
    match seconds {
        None => "-".into(),
        Some(s) if s < 1e-3 => format!("{:.1} µs", s * 1e6),
        Some(s) if s < 1.0 => format!("{:.1} ms", s * 1e3),
        Some(s) => format!("{s:.2} s"),
    }
}

/// The least user times of a call, of both, in some rounds: nine for short calls, three for others,
/// one where a call of the engine takes more than 1.5 s.
fn times(input: &Input) -> (Option<f64>, Option<f64>) {
    let (of_engine, of_twin) = (repeats(input, by_engine), repeats(input, by_twin));
    let (mut engine, mut twin) = (f64::MAX, f64::MAX);
    for round in 1.. {
        engine = engine.min(time(input, by_engine, of_engine));
        twin = twin.min(time(input, by_twin, of_twin));
        let rounds = if engine > 1.5 { 1 } else { 3 + 6 * (engine < 0.01) as usize };
        if round >= rounds {
            break;
        }
    }
    (Some(engine), Some(twin))
}

fn run(input: &Input, call: Call, times: usize) {
    for _ in 0..times {
        black_box(call(black_box(input)));
    }
}

/// How many calls take some 0.05 seconds or more.
fn repeats(input: &Input, call: Call) -> usize {
    let mut n = 1;
    while n < 1 << 20 {
        let start = user_time();
        run(input, call, n);
        if user_time() - start > Duration::from_millis(50) {
            break;
        }
        n *= 2;
    }
    n
}

/// The user time of one call, in seconds.
fn time(input: &Input, call: Call, repeats: usize) -> f64 {
    let start = user_time();
    run(input, call, repeats);
    (user_time() - start).as_secs_f64() / repeats as f64
}

fn folder() -> PathBuf {
    Path::new(env!("CARGO_MANIFEST_DIR")).join("target")
}

/// The ratio of instructions, for calls of at most 30 milliseconds.
fn instruction_ratio(input: &Input, engine: Option<f64>) -> Option<f64> {
    let work = match input.work {
        Work::Judge => "judge".to_string(),
        Work::Witness => "witness".to_string(),
        Work::First(n) => format!("first {n}"),
        Work::Nexts(times) => format!("nexts {times}"),
        _ => return None,
    };
    if engine? > 0.03 {
        return None;
    }
    std::fs::write(folder().join("input.patterns"), &input.patterns).ok()?;
    std::fs::write(folder().join("input.second"), &input.second).ok()?;
    let of = |who: &str| -> Option<f64> {
        let (none, some) = (collected(who, 0, &work)?, collected(who, 5, &work)?);
        Some((some - none) / 5.0)
    };
    Some(of("engine")? / of("twin")?)
}

/// The instructions of a process that calls the engine or the second implementation so many times.
fn collected(who: &str, times: usize, work: &str) -> Option<f64> {
    let me = std::env::current_exe().ok()?;
    let words = ["--tool=callgrind", "--callgrind-out-file=/dev/null"];
    let repeat = ["repeat", who, &times.to_string(), work];
    let run = Command::new("valgrind").args(words).arg(me).args(repeat).output().ok()?;
    let said = String::from_utf8_lossy(&run.stderr).into_owned();
    let line = said.lines().find_map(|l| l.split("Collected : ").nth(1))?;
    line.trim().parse().ok()
}

/// Does the work on the input in the files so many times: what callgrind counts.
fn repeat(words: &[String]) {
    let read = |name| std::fs::read(folder().join(name)).expect("the input's file");
    let (patterns, second) = (read("input.patterns"), read("input.second"));
    let work = match words[2].split_once(' ') {
        Some(("first", n)) => Work::First(n.parse().expect("a length")),
        Some((_, times)) => Work::Nexts(times.parse().expect("a number")),
        None if words[2] == "witness" => Work::Witness,
        None => Work::Judge,
    };
    let input = Input { name: "", work, patterns, second, target: None, table: RefCell::default() };
    let call: Call = if words[0] == "engine" { by_engine } else { by_twin };
    let times: usize = words[1].parse().expect("a number");
    run(&input, call, times);
}
