//! The differential test: the engine against the second implementation, on many inputs from a
//! printed seed.
//!
//! `differential [COUNT] [SEED]` makes COUNT random inputs beside the fixed ones. It prints how
//! many there were of each kind, how many were accepted and refused, and each disagreement with its
//! input. The exit status is 1 where there was a disagreement, a crash or a hang, or too few inputs
//! of some kind, such as refusals 11, sets whose m is not the one before order 3, or schemes that
//! delete several positions together.

use std::collections::BTreeMap;
use std::fs;
use std::path::{Path, PathBuf};
use std::process::{exit, Command};
use std::sync::atomic::{AtomicU64, Ordering};
use std::thread;
use std::time::{Duration, Instant, SystemTime};
use twin::avoiders::{first_within, last_avoider, next_within, Answer, Effort, Exhausted};
use twin::containment::copy_of;
use twin::counting::{count, need, plain};
use twin::engine;
use twin::guarded::{Guarded, FILL};
use twin::inputs::{exact_need, exact_set_need, examples, fixed, lengthened, Case, Maker};
use twin::inversion_inputs::{of_all, Lent, ANSWERS, EXAMPLES, WITHOUT_PATTERNS};
use twin::inversions::{self, inversions_of_texts};
use twin::judging::{judge_texts, new_longest, old_longest};
use twin::list_inputs::{self, length_three, Listed, Lister, Start, NAMED, SMALL};
use twin::listing::{first_copy_slowly, Listing};
use twin::model::{Entry, Patterns, Refusal, Scheme, IRREVERSIBLE, NO_POSITION, OVERSIZE, SHORT_PAGE, SHORT_TABLE};
use twin::model::{LONGEST, LONGEST_BY_INVERSIONS, LONGEST_PLAIN, WITNESS};
use twin::notation::{read_patterns, read_scheme, write_patterns, write_scheme};
use twin::published::published;
use twin::random::Random;
use twin::set_inputs::{together, E_1234, PAIRS};
use twin::table::table;
use twin::witness::judge_texts_on_page;
use twin::worst::{own_basis, own_basis_together};

/// The stack that include/judge.h asks of a thread that calls the judge.
const STACK: usize = 512 * 1024;
/// A case that takes longer than this is a hang.
const PATIENCE: u64 = 120;
/// The lengths of the pages that judging is lent.
const PAGES: [usize; 5] = [0, 1, 31, WITNESS, 40];
/// A run that meets fewer refusals 11, or compares fewer witnesses with listing, or finds fewer
/// copies, or has fewer sets with two different m, than this proves too little, and fails.
const ENOUGH: usize = 500;
/// Every run has at least so many inputs with longer patterns put into the set, so that a short one
/// has enough of them, and as many whose entries delete several positions together.
const LENGTHENED: usize = 2_000;
const TOGETHER: usize = 2_000;
/// The cells of the longest table that the engine is lent for one input.
const CELLS: u64 = 20_000;
/// The same for counts by inversions, and for one in sixteen of them.
const CELLS_BY_INVERSIONS: [u64; 2] = [40_000, 1_000_000];
/// The words that the second implementation may look at for one avoider. An input that takes more
/// is left out.
const WORDS: u64 = 10_000;
/// Avoiders up to this length are compared with listing.
const LISTED: usize = 7;

static STARTED: AtomicU64 = AtomicU64::new(0);

fn main() {
    let words: Vec<String> = std::env::args().skip(1).collect();
    fs::create_dir_all(folder()).expect("a folder for the input at work");
    if words.first().is_some_and(|w| w == "worker") {
        let number = |i: usize| words[i].parse::<u64>().expect("a number");
        let (count, seed) = (number(1) as usize, number(2));
        watch();
        let run = move || Test::new(seed).run(count);
        let wrong = thread::Builder::new().stack_size(STACK).spawn(run).expect("a thread").join();
        exit(!matches!(wrong, Ok(0)) as i32);
    }
    let number = |i: usize| words.get(i).map(|w| w.parse::<u64>().unwrap_or_else(|_| usage()));
    let count = number(0).unwrap_or(20_000);
    let seed = number(1).unwrap_or_else(|| SystemTime::UNIX_EPOCH.elapsed().map_or(1, |d| d.as_secs()));
    println!("differential test: {count} random inputs, seed {seed}");
    let me = std::env::current_exe().expect("the program's own place");
    let status = Command::new(me).args(["worker", &count.to_string(), &seed.to_string()]).status().expect("the worker");
    if status.code().is_none() {
        println!("CRASH: the worker ended with {status}; its input stands in {}", current().display());
    }
    exit(!status.success() as i32);
}

fn usage() -> ! {
    eprintln!("usage: differential [COUNT] [SEED]");
    exit(2);
}

fn folder() -> PathBuf {
    Path::new(env!("CARGO_MANIFEST_DIR")).join("target")
}

/// The file that holds the input at work.
fn current() -> PathBuf {
    folder().join("current-input")
}

/// Ends the process where one case takes too long.
fn watch() {
    thread::spawn(|| {
        let (mut seen, mut since) = (0, Instant::now());
        loop {
            thread::sleep(Duration::from_secs(1));
            let now = STARTED.load(Ordering::Relaxed);
            if now != seen {
                (seen, since) = (now, Instant::now());
            }
            if since.elapsed().as_secs() > PATIENCE {
                println!("HANG: a case took more than {PATIENCE} seconds; its input stands in {}", current().display());
                exit(1);
            }
        }
    });
}

/// Inputs with a set whose m is not its old one, the m before order 3.
#[derive(Default)]
struct TwoM {
    /// those whose claims were judged
    judged: usize,
    /// those whose verdict was compared with listing up to the old m: accepted, and refused 11
    accepted: usize,
    refused: usize,
    /// those whose witness was compared with listing up to the old m; of these, the witnesses at
    /// the greatest total that is compared
    witnesses: usize,
    last: usize,
}

/// Inputs with an entry that deletes several positions together.
#[derive(Default)]
struct Several {
    /// those whose claims were judged
    judged: usize,
    /// those whose verdict was compared with listing: accepted, and refused 11
    accepted: usize,
    refused: usize,
    /// those refused 11 at such an entry whose witness was compared with listing
    witnesses: usize,
    /// those that were counted by the engine
    counted: usize,
    /// the most positions that an accepted scheme deletes together
    largest: usize,
}

/// What became of the calls for counts by inversions.
#[derive(Default)]
struct ByInversions {
    /// those whose results were filled; of the ones at random lengths, those at the greatest one,
    /// and those of schemes that delete several positions together
    filled: usize,
    longest: usize,
    several: usize,
    /// those that were refused, by number; of these, those of a length that is not counted
    refused: BTreeMap<u32, usize>,
    too_long: usize,
    /// rows of figures that were compared with listing
    listed: usize,
    slowest: Duration,
    calls: Duration,
}

struct Test {
    seed: u64,
    /// where the engine's two texts stand, and its page
    texts: [Guarded; 2],
    page: Guarded,
    kinds: BTreeMap<&'static str, (usize, usize)>,
    verdicts: BTreeMap<u32, usize>,
    /// inputs whose claims were judged; the first ones, all of them while `thorough` and one in
    /// eight of the others are listed
    claims: usize,
    thorough: bool,
    listed: usize,
    counted: usize,
    /// witnesses; those compared with listing, and with listing at greater lengths
    witnesses: usize,
    listed_witnesses: usize,
    long_witnesses: usize,
    longest_witness: u8,
    two_m: TwoM,
    several: Several,
    by_inversions: ByInversions,
    /// for the lengths and the tables that accepted inputs are counted with
    random: Random,
    tables: usize,
    wrong: usize,
    slowest: (Duration, &'static str),
    calls: Duration,
    /// pairs of lines for the program that judges them, with the lines that it is to print
    lines: Vec<(Vec<u8>, String)>,
}

impl Test {
    fn new(seed: u64) -> Test {
        let slowest = (Duration::ZERO, "");
        Test {
            seed,
            texts: [Guarded::new(), Guarded::new()],
            page: Guarded::new(),
            kinds: BTreeMap::new(),
            verdicts: BTreeMap::new(),
            claims: 0,
            thorough: false,
            listed: 0,
            counted: 0,
            witnesses: 0,
            listed_witnesses: 0,
            long_witnesses: 0,
            longest_witness: 0,
            two_m: TwoM::default(),
            several: Several::default(),
            by_inversions: ByInversions::default(),
            random: Random::new(seed),
            tables: 0,
            wrong: 0,
            slowest,
            calls: Duration::ZERO,
            lines: vec![],
        }
    }

    /// The number of disagreements.
    fn run(&mut self, count: usize) -> usize {
        for p in published() {
            let verdict = line(judge_texts(p.patterns.as_bytes(), p.scheme.as_bytes()));
            if verdict != p.verdict {
                self.report("the second implementation and the published verdict", p.verdict, &verdict, p.patterns.as_bytes(), p.scheme.as_bytes());
            }
            self.published_counts(&p);
        }
        for (patterns, scheme, expected) in lengthened() {
            self.verdict(&patterns, scheme, expected);
        }
        for (patterns, scheme, expected) in together() {
            self.verdict(patterns, &scheme, expected);
        }
        self.needs();
        self.inversion_examples();
        // the numbers that the benchmark names
        for (own, expected) in [(own_basis(), "accepted 412969"), (own_basis_together(), "accepted 343207")] {
            let (patterns, scheme) = (write_patterns(&own.patterns), write_scheme(&own.entries));
            let verdict = line(judge_texts(&patterns, &scheme));
            if verdict != expected {
                self.report("the set that is its own basis", expected, &verdict, &patterns, &scheme);
            }
        }
        self.examples();
        for case in fixed() {
            self.judge(&case);
        }
        let mut maker = Maker::new(self.seed, (count / 50).clamp(20, 600));
        for _ in 0..count {
            STARTED.fetch_add(1, Ordering::Relaxed);
            let case = maker.next_case();
            self.judge(&case);
        }
        for _ in 0..count / 8 {
            let case = maker.next_deletion();
            self.judge(&case);
        }
        self.thorough = true;
        for _ in 0..(count / 8).max(LENGTHENED) {
            let case = maker.next_lengthened();
            self.judge(&case);
        }
        for _ in 0..(count / 8).max(TOGETHER) {
            let case = maker.next_together();
            self.judge(&case);
        }
        self.print();
        self.enough("refusals 7", self.verdicts.get(&NO_POSITION).copied().unwrap_or(0));
        self.enough("schemes with sets of positions, accepted by listing", self.several.accepted);
        self.enough("schemes with sets of positions, refused 11 by listing", self.several.refused);
        self.enough("witnesses at sets of positions compared with listing", self.several.witnesses);
        self.enough("schemes with sets of positions that were counted", self.several.counted);
        self.enough("counts by inversions", self.by_inversions.filled);
        self.enough("counts by inversions with sets of positions", self.by_inversions.several);
        self.enough("counts by inversions compared with listing", self.by_inversions.listed);
        self.enough("tables too short for a count by inversions", self.by_inversions.refused(SHORT_TABLE));
        self.enough("results too short for a count by inversions", self.by_inversions.refused(SHORT_PAGE));
        self.enough("lengths not counted by inversions", self.by_inversions.too_long);
        self.enough("refusals 11", self.witnesses);
        self.enough("witnesses compared with listing", self.listed_witnesses);
        self.enough("sets with two m, accepted by listing up to the old one", self.two_m.accepted);
        self.enough("sets with two m, refused 11 by listing up to the old one", self.two_m.refused);
        self.enough("witnesses of sets with two m compared with listing", self.two_m.witnesses);
        self.copies();
        self.avoiders(count / 4);
        self.judgements();
        self.tables(&mut maker);
        println!("{} disagreements", self.wrong);
        self.wrong
    }

    /// Both judges on one input.
    fn judge(&mut self, case: &Case) {
        STARTED.fetch_add(1, Ordering::Relaxed);
        let mut input = case.patterns.clone();
        input.push(b'\n');
        input.extend(&case.scheme);
        fs::write(current(), &input).expect("the file of the input at work");
        let mut page = [FILL; PAGES[4]];
        let twin = judge_texts_on_page(&case.patterns, &case.scheme, &mut page);
        let number = twin.map_or_else(|r| r.0, |_| 0);
        let [first, second] = &mut self.texts;
        let (first, second) = (first.place(&case.patterns), second.place(&case.scheme));
        let start = Instant::now();
        let engine = engine::judge(first, second);
        let took = start.elapsed();
        self.calls += took;
        if took > self.slowest.0 {
            self.slowest = (took, case.kind);
        }
        if engine != number {
            self.report("the engine's judge", &number.to_string(), &engine.to_string(), &case.patterns, &case.scheme);
        }
        let kind = self.kinds.entry(case.kind).or_default();
        kind.0 += 1;
        kind.1 += twin.is_ok() as usize;
        *self.verdicts.entry(number).or_default() += 1;
        if !input[..case.patterns.len()].contains(&b'\n') && !case.scheme.contains(&b'\n') && input.len() < 40_000 {
            input.push(b'\n');
            self.lines.push((input, shown_line(twin, &page[..WITNESS])));
        }
        self.pages(case, twin, &page);
        if number == 0 || number >= 10 {
            self.list(case, twin);
        }
        if let Err(Refusal(IRREVERSIBLE, index)) = twin {
            self.witness(case, index, &page[..WITNESS]);
        }
        if twin.is_ok() {
            self.count(case);
            self.count_by_inversions(case);
        }
        if self.random.one_in(4) {
            let lent = Lent::any(&mut self.random);
            self.any_inversions(case, number, &lent);
        }
    }

    /// The engine's counting and its plain evaluation on an accepted input, at random lengths up to
    /// one more than are counted: the answer and the whole table, which has the cells that are
    /// needed, or one less, none, or some more.
    fn count(&mut self, case: &Case) {
        let patterns = read_patterns(&case.patterns).expect("a set that was judged");
        let scheme = read_scheme(&case.scheme).expect("a scheme that was judged");
        let mut n = self.random.below(LONGEST + 2);
        while n <= LONGEST && need(&scheme, n) > CELLS {
            n -= 1;
        }
        let needed = if n > LONGEST { 10 } else { need(&scheme, n) as usize };
        let lent = *self.random.pick(&[needed, needed, needed, needed + 3, needed - 1, 0]);
        let mut cells = vec![FILL as u64; lent];
        let mut lent = cells.clone();
        let expected = (count(&patterns, &scheme, n, &mut cells).map_err(|r| r.0), cells);
        self.tables += 1;
        self.several.counted += (several(&scheme) && expected.0.is_ok()) as usize;
        if let Some(call) = engine::COUNT {
            let answer = call(&case.patterns, &case.scheme, n, &mut lent);
            let found = (answer, lent);
            if found != expected {
                let what = format!("the engine's count for {n}, {needed} cells needed");
                let (expected, found) = (counted(&expected), counted(&found));
                self.report(&what, &expected, &found, &case.patterns, &case.scheme);
            }
        }
        self.count_plainly(case, &patterns, &scheme);
    }

    /// The plain evaluation of the engine at a random length, up to one more than is counted.
    fn count_plainly(&mut self, case: &Case, patterns: &Patterns, scheme: &Scheme) {
        let Some(call) = engine::PLAIN else { return };
        let n = self.random.below(LONGEST_PLAIN + 2);
        let expected = plain(patterns, scheme, n).map_err(|r| r.0);
        let found = call(&case.patterns, &case.scheme, n);
        if found != expected {
            let what = format!("the engine's plain count for {n}");
            let (expected, found) = (format!("{expected:?}"), format!("{found:?}"));
            self.report(&what, &expected, &found, &case.patterns, &case.scheme);
        }
    }

    /// Counting by inversions on an accepted input, at a random length; the figures add up to the
    /// engine's plain count.
    fn count_by_inversions(&mut self, case: &Case) {
        let scheme = read_scheme(&case.scheme).expect("a scheme that was judged");
        let most = CELLS_BY_INVERSIONS[self.random.one_in(16) as usize];
        let lent = Lent::random(&mut self.random, &scheme, most);
        let answer = self.inversions(&case.patterns, &case.scheme, &lent);
        let tally = &mut self.by_inversions;
        tally.too_long += (answer == Err(OVERSIZE)) as usize;
        let Ok(figures) = answer else { return };
        tally.longest += (lent.n == LONGEST_BY_INVERSIONS) as usize;
        tally.several += several(&scheme) as usize;
        let Some(call) = engine::COUNT else { return };
        let mut cells = vec![FILL as u64; need(&scheme, lent.n) as usize];
        let (sum, counted) = (figures.iter().sum(), call(&case.patterns, &case.scheme, lent.n, &mut cells));
        if counted != Ok(sum) {
            let what = format!("the figures for {} and the engine's count", lent.n);
            let (sum, counted) = (format!("{sum}, of {figures:?}"), format!("{counted:?}"));
            self.report(&what, &sum, &counted, &case.patterns, &case.scheme);
        }
    }

    /// Counting by inversions on any input, with a length and memory that need not fit it: what the
    /// judge refuses is refused with the same number.
    fn any_inversions(&mut self, case: &Case, number: u32, lent: &Lent) {
        let answer = self.inversions(&case.patterns, &case.scheme, lent);
        if number != 0 && answer != Err(number) {
            let (expected, found) = (number.to_string(), format!("{answer:?}"));
            self.report("the verdict and the count by inversions", &expected, &found, &case.patterns, &case.scheme);
        }
        self.by_inversions.too_long += (number == 0 && answer == Err(OVERSIZE)) as usize;
    }

    /// Both implementations of counting by inversions on two texts: the answer, all results and the
    /// whole table, which hold other numbers before. The figures, or the number of the refusal.
    fn inversions(&mut self, patterns: &[u8], scheme: &[u8], lent: &Lent) -> Result<Vec<u64>, u32> {
        let before = Memory::of(lent);
        let mut after = before.clone();
        let answer = inversions_of_texts(patterns, scheme, lent.n, &mut after.table, &mut after.results).map_err(|r| r.0);
        // what is promised: a refusal changes nothing, else the needed cells hold 0 and nothing but
        // the figures is written
        let written = answer.unwrap_or(0);
        let needed = answer.map_or(0, |_| read_scheme(scheme).map_or(0, |s| inversions::need(&s, lent.n) as usize));
        let mut promised = before.clone();
        promised.table[..needed].fill(0);
        promised.results[..written].copy_from_slice(&after.results[..written]);
        let expected = answer.map(|written| written as u64);
        if after != promised {
            let what = format!("what the second implementation leaves of {lent:?}");
            let (promised, found) = (promised.since(&before), after.since(&before));
            self.report(&what, &format!("{expected:?}, {promised}"), &found, patterns, scheme);
        }
        if let Some(call) = engine::INVERSIONS {
            let mut left = before.clone();
            let [first, second] = &mut self.texts;
            let (first, second) = (first.place(patterns), second.place(scheme));
            let start = Instant::now();
            let found = call(first, second, lent.n, &mut left.table, &mut left.results);
            self.by_inversions.took(start.elapsed());
            if (found, &left) != (expected, &promised) {
                let what = format!("the engine's count by inversions, {lent:?}, {needed} cells needed");
                let expected = format!("{expected:?}, {}", promised.since(&before));
                let found = format!("{found:?}, {}", left.since(&before));
                self.report(&what, &expected, &found, patterns, scheme);
            }
        }
        match answer {
            Ok(_) => self.by_inversions.filled += 1,
            Err(number) => *self.by_inversions.refused.entry(number).or_default() += 1,
        }
        answer.map(|_| after.results[..written].to_vec())
    }

    /// Figures and refusals that were worked out by hand, and the figures of all permutations.
    fn inversion_examples(&mut self) {
        let mut examples: Vec<(&str, &str, usize, Vec<u64>)> = vec![];
        examples.extend(EXAMPLES.map(|(set, scheme, n, figures)| (set, scheme, n, figures.to_vec())));
        for scheme in WITHOUT_PATTERNS {
            examples.extend((0..=LONGEST_BY_INVERSIONS).map(|n| ("∅", scheme, n, of_all(n))));
        }
        for (set, text, n, expected) in examples {
            let scheme = read_scheme(text.as_bytes()).expect("a scheme");
            let found = self.inversions(set.as_bytes(), text.as_bytes(), &Lent::just(&scheme, n));
            if found.as_ref() != Ok(&expected) {
                let what = format!("the figures for {n} worked out by hand");
                let (expected, found) = (format!("{expected:?}"), format!("{found:?}"));
                self.report(&what, &expected, &found, set.as_bytes(), text.as_bytes());
            }
        }
        for (set, scheme, lent, expected) in ANSWERS {
            let found = self.inversions(set.as_bytes(), scheme.as_bytes(), &lent).map_or_else(|r| r, |_| 0);
            if found != expected {
                let what = format!("the answer worked out by hand, {lent:?}");
                let (expected, found) = (expected.to_string(), found.to_string());
                self.report(&what, &expected, &found, set.as_bytes(), scheme.as_bytes());
            }
        }
    }

    /// The figures of both implementations against listing, for an accepted input.
    fn listed_inversions(&mut self, case: &Case, scheme: &Scheme, listing: &mut Listing, n: usize) {
        let listed = listing.by_inversions(n);
        let found = self.inversions(&case.patterns, &case.scheme, &Lent::just(scheme, n));
        self.by_inversions.listed += 1;
        if found.as_ref() != Ok(&listed) {
            let what = format!("the figures for {n} and listing");
            let (listed, found) = (format!("{listed:?}"), format!("{found:?}"));
            self.report(&what, &listed, &found, &case.patterns, &case.scheme);
        }
    }

    /// A verdict that was worked out by hand.
    fn verdict(&mut self, patterns: &str, scheme: &str, expected: &str) {
        let (patterns, scheme) = (patterns.as_bytes(), scheme.as_bytes());
        let verdict = line(judge_texts(patterns, scheme));
        if verdict != expected {
            self.report("the verdict worked out by hand", expected, &verdict, patterns, scheme);
        }
    }

    /// The needs of tables that were worked out by hand.
    fn needs(&mut self) {
        let exact = String::from_utf8(write_scheme(&exact_set_need().entries)).expect("a text");
        // the largest set counts, whether its entry is reached or not
        let unreached = "{(ε,∅,∅),(1,∅,{1}),(321,∅,{1,2,3})}";
        let needs: [(&str, usize, u64); 12] = [
            (E_1234, 10, 3_903),
            (E_1234, 11, 5_811),
            (PAIRS, 0, 3),
            (PAIRS, 1, 6),
            (PAIRS, 2, 15),
            (PAIRS, 3, 30),
            (PAIRS, 4, 51),
            (&exact, 10, 2_552),
            (&exact, 11, 4_096),
            (unreached, 0, 4),
            (unreached, 2, 12),
            (unreached, 3, 20),
        ];
        for (text, n, expected) in needs {
            let found = read_scheme(text.as_bytes()).map(|scheme| need(&scheme, n));
            if found != Ok(expected) {
                let what = format!("the need for {n} worked out by hand");
                let (expected, found) = (expected.to_string(), format!("{found:?}"));
                self.report(&what, &expected, &found, b"", text.as_bytes());
            }
        }
    }

    /// The engine's judging with pages of several lengths: the answer and the whole page. The
    /// second implementation has judged on the longest one, and shows the same on any that is long
    /// enough.
    fn pages(&mut self, case: &Case, verdict: Result<usize, Refusal>, longest: &[u8]) {
        let Some(judge) = engine::JUDGE_ON_PAGE else { return };
        for length in PAGES {
            let mut page = longest[..length].to_vec();
            let mut expected = verdict;
            if length < WITNESS {
                page.fill(FILL);
                expected = judge_texts_on_page(&case.patterns, &case.scheme, &mut page);
            }
            let expected = (expected.map(|cells| cells as u64).map_err(|r| r.0), &page[..]);
            let [first, second] = &mut self.texts;
            let lent = self.page.page(length);
            let answer = judge(first.place(&case.patterns), second.place(&case.scheme), lent);
            let found = (answer, &*lent);
            if found != expected {
                let (expected, found) = (format!("{expected:?}"), format!("{found:?}"));
                let what = format!("the engine's page of {length} bytes");
                self.report(&what, &expected, &found, &case.patterns, &case.scheme);
            }
        }
    }

    /// The witness of the fast mode against the slow one's, where the lengths are small.
    fn witness(&mut self, case: &Case, index: usize, fast: &[u8]) {
        let patterns = read_patterns(&case.patterns).expect("a set that was judged");
        let scheme = read_scheme(&case.scheme).expect("a scheme that was judged");
        let entry: &Entry = &scheme.entries[index];
        let mut listing = Listing::of(&patterns);
        let limit = if self.witnesses.is_multiple_of(32) { 8 } else { 6 };
        let mut wrong = |what, slow: &str| {
            self.report(what, slow, &format!("{fast:?}"), &case.patterns, &case.scheme);
        };
        if !listing.admits(entry, fast) {
            wrong("the fast mode's witness", "a permutation that is lost, and its copy");
        }
        // What has no witness up to a length is shown with a greater one.
        let slow = listing.witness(entry, limit);
        let agrees = match &slow {
            Some(slow) => slow == fast,
            None => fast[0] as usize > limit,
        };
        if !agrees {
            wrong("the slow witness and the fast one", &format!("{slow:?}"));
        }
        let longer = if slow.is_none() { listing.witness_among(entry, 3_000) } else { None };
        if longer.as_ref().is_some_and(|longer| longer != fast) {
            wrong("the longer slow witness and the fast one", &format!("{longer:?}"));
        }
        self.witnesses += 1;
        self.listed_witnesses += slow.is_some() as usize;
        self.long_witnesses += longer.is_some() as usize;
        let (m, old_m) = listing.both_m();
        let compared = slow.is_some() || longer.is_some();
        if m != old_m && compared {
            self.two_m.witnesses += 1;
            self.two_m.last += (fast[0] as usize + 1 == entry.prefix.count() + m) as usize;
        }
        self.several.witnesses += (entry.rule.size() > 1 && compared) as usize;
        self.longest_witness = self.longest_witness.max(fast[0]);
    }

    /// The witnesses that were worked out by hand.
    fn examples(&mut self) {
        for (patterns, scheme, permutation, copy) in examples() {
            let mut expected = vec![0; WITNESS];
            for (half, word) in expected.chunks_mut(WITNESS / 2).zip([permutation, copy]) {
                half[0] = word.len() as u8;
                half[1..=word.len()].copy_from_slice(word);
            }
            let mut page = vec![FILL; WITNESS];
            let verdict = judge_texts_on_page(patterns.as_bytes(), scheme.as_bytes(), &mut page);
            if !matches!(verdict, Err(Refusal(IRREVERSIBLE, _))) || page != expected {
                let (expected, found) = (format!("{expected:?}"), format!("{verdict:?} {page:?}"));
                let (patterns, scheme) = (patterns.as_bytes(), scheme.as_bytes());
                self.report("the witness worked out by hand", &expected, &found, patterns, scheme);
            }
        }
    }

    /// Fails where there was too little of something.
    fn enough(&mut self, what: &str, number: usize) {
        if number < ENOUGH {
            self.wrong += 1;
            println!("TOO FEW: {number} {what}, fewer than {ENOUGH}");
        }
    }

    /// Containment: the engine, the second implementation and, for short permutations, the slow
    /// mode, on random lists, most of them permutations.
    fn copies(&mut self) {
        let mut random = Random::new(self.seed);
        let (mut inputs, mut found, mut listed, mut refused) = (0, 0, 0, 0);
        for _ in 0..20_000 {
            STARTED.fetch_add(1, Ordering::Relaxed);
            let length = if random.one_in(3) { random.below(10) } else { random.within(1, 5) };
            let mut pattern = random.permutation(length);
            let length = if random.one_in(3) { random.below(23) } else { random.within(3, 10) };
            let mut permutation = random.permutation(length);
            for list in [&mut pattern, &mut permutation] {
                if random.one_in(16) && !list.is_empty() {
                    let at = random.below(list.len());
                    list[at] = *random.pick(&[0, 1, 2, 9, 10, 21, 32, 64, 255]);
                }
            }
            let mut page = vec![FILL; random.below(10)];
            let twin = copy_of(&pattern, &permutation, &mut page);
            inputs += 1;
            found += matches!(twin, Ok(n) if n > 0) as usize;
            refused += twin.is_err() as usize;
            if permutation.len() <= 10 && twin.is_ok() {
                listed += 1;
                let slow = first_copy_slowly(&pattern, &permutation);
                let fast = twin::word::contains(&pattern, &permutation);
                if slow.as_deref() != fast.as_ref().map(|p| p.items()) {
                    let (slow, fast) = (format!("{slow:?}"), format!("{fast:?}"));
                    self.report("the slow and the fast copy", &slow, &fast, &pattern, &permutation);
                }
            }
            let Some(call) = engine::COPY_OF else { continue };
            let [first, second] = &mut self.texts;
            let lent = self.page.page(page.len());
            let answer = call(first.place(&pattern), second.place(&permutation), lent);
            let expected = twin.map(|n| n as u64).map_err(|r| r.0);
            if (answer, &*lent) != (expected, &page[..]) {
                let expected = format!("{expected:?} {page:?}");
                let found = format!("{answer:?} {lent:?}");
                self.report("the engine's containment", &expected, &found, &pattern, &permutation);
            }
        }
        println!("{inputs} lists searched for a copy, {found} with one, {refused} refused");
        println!("copies compared with listing: {listed}");
        self.enough("copies", found);
    }

    /// The first avoider and the next: whole walks at small lengths, the beginning and the end of
    /// the list at length 20, and the fixed and the random inputs.
    fn avoiders(&mut self, count: usize) {
        let mut tally = Tally::default();
        let threes: Vec<Vec<u8>> = length_three().iter().map(|set| write_patterns(set)).collect();
        let named = NAMED.iter().chain(&SMALL).map(|set| set.as_bytes().to_vec());
        for set in threes.into_iter().chain(named) {
            for n in 0..=LISTED {
                let walked = self.walk(&mut tally, &set, n, usize::MAX);
                if walked != tally.listing(&set).avoiders(n) {
                    self.report("a whole walk", "all avoiders", &format!("{walked:?}"), &set, b"");
                }
            }
            self.walk(&mut tally, &set, LONGEST, 10);
            self.end(&mut tally, &set, LONGEST);
        }
        for input in list_inputs::fixed() {
            self.list_one(&mut tally, &input);
        }
        let mut lister = Lister::new(self.seed, WORDS);
        for at in 0..count {
            let Some(input) = lister.next_input() else {
                tally.skipped += 1;
                continue;
            };
            if let Some(word) = self.list_one(&mut tally, &input).filter(|_| at.is_multiple_of(4)) {
                self.follow(&mut tally, &input.patterns, Start::After(word), 3);
            }
        }
        tally.print();
        self.enough("avoiders given", tally.given);
        self.enough("answers that there is none", tally.nothing);
        self.enough("avoiders compared with listing", tally.listed);
    }

    /// The first avoider and so many nexts, or all of them.
    fn walk(&mut self, tally: &mut Tally, set: &[u8], n: usize, steps: usize) -> Vec<Vec<u8>> {
        self.follow(tally, set, Start::Length(n), steps)
    }

    /// What is given from a start on, after so many steps at the latest.
    fn follow(&mut self, tally: &mut Tally, set: &[u8], mut start: Start, steps: usize) -> Vec<Vec<u8>> {
        let mut given = vec![];
        while given.len() <= steps {
            let input = Listed { kind: "walks", patterns: set.to_vec(), start };
            let Some(word) = self.list_one(tally, &input) else { break };
            given.push(word.clone());
            start = Start::After(word);
        }
        given
    }

    /// The next of the last avoider.
    fn end(&mut self, tally: &mut Tally, set: &[u8], n: usize) {
        let patterns = read_patterns(set).expect("a set");
        let last = last_avoider(patterns.items(), n, &mut Effort::of(u64::MAX)).expect("no limit");
        let Some(word) = last else { return };
        if let Some(next) = self.follow(tally, set, Start::After(word[..n].to_vec()), 1).first() {
            self.report("the next of the last avoider", "none", &format!("{next:?}"), set, b"");
        }
    }

    /// The engine and the second implementation on one input, with pages of several lengths; the
    /// slow mode too where the length is small. The avoider that is given.
    fn list_one(&mut self, tally: &mut Tally, input: &Listed) -> Option<Vec<u8>> {
        STARTED.fetch_add(1, Ordering::Relaxed);
        let asked = format!("{:?}", input.start);
        let text = [&input.patterns[..], b"\n", asked.as_bytes()].concat();
        fs::write(current(), text).expect("the file of the input at work");
        // what is refused for its length is so with any page
        let n = input.start.length().min(300);
        let mut last = None;
        for length in [0, n.saturating_sub(1), n, n + 1 + n % 7] {
            let mut page = vec![FILL; length];
            let Ok(answer) = list_by_twin(input, &mut page) else {
                tally.skipped += 1;
                return None;
            };
            self.list_by_engine(tally, input, answer, &page);
            tally.count(answer);
            last = Some((answer, page));
        }
        let (answer, page) = last?;
        let given = (answer == Ok(true)).then(|| page[..n].to_vec());
        let kind = tally.kinds.entry(input.kind).or_default();
        kind.0 += 1;
        kind.1 += given.is_some() as usize;
        if answer.is_ok() && n <= LISTED {
            let slow = tally.slowly(input);
            if slow != given {
                let (slow, fast) = (format!("{slow:?}"), format!("{given:?}"));
                self.report("the slow and the fast avoider", &slow, &fast, &input.patterns, asked.as_bytes());
            }
        }
        given
    }

    /// The engine on an input of listing, with a page as long as the given one, which shows what is
    /// expected.
    fn list_by_engine(&mut self, tally: &mut Tally, input: &Listed, answer: Answer, page: &[u8]) {
        let lent = self.page.page(page.len());
        let [first, second] = &mut self.texts;
        let patterns = first.place(&input.patterns);
        let started = Instant::now();
        let found = match &input.start {
            Start::Length(n) => engine::FIRST.map(|call| call(patterns, *n, lent)),
            Start::After(word) => engine::NEXT.map(|call| call(patterns, second.place(word), lent)),
        };
        tally.took(started.elapsed(), input);
        let Some(found) = found else { return };
        let (found, expected) = ((found, &*lent), (answer.map(u64::from).map_err(|r| r.0), page));
        if found != expected {
            let (expected, found) = (format!("{expected:?}"), format!("{found:?}"));
            let what = format!("the engine's avoider on a page of {} bytes", page.len());
            let asked = format!("{:?}", input.start);
            self.report(&what, &expected, &found, &input.patterns, asked.as_bytes());
        }
    }

    /// The fast mode against the slow one, where the lengths are small.
    fn list(&mut self, case: &Case, fast: Result<usize, Refusal>) {
        let (Ok(patterns), Ok(scheme)) = (read_patterns(&case.patterns), read_scheme(&case.scheme)) else { return };
        let mut listing = Listing::of(&patterns);
        let (m, old_m) = (new_longest(&patterns), old_longest(&patterns));
        if listing.both_m() != (m, old_m) {
            let (slow, fast) = (format!("{:?}", listing.both_m()), format!("{:?}", (m, old_m)));
            self.report("the slow m and old m, and the fast ones", &slow, &fast, &case.patterns, &case.scheme);
        }
        let (two, many) = (m != old_m, several(&scheme));
        self.two_m.judged += two as usize;
        self.several.judged += many as usize;
        if fast.is_ok() {
            self.several.largest = self.several.largest.max(largest(&scheme));
        }
        self.claims += 1;
        if self.claims > 3_700 && self.claims & 7 != 0 && !self.thorough {
            return;
        }
        let depth = scheme.entries.iter().map(|e| e.prefix.count()).max().unwrap_or(0);
        if old_m + depth > 8 || scheme.entries.len() > 40 {
            return;
        }
        if let Some(slow) = listing.judge(&scheme) {
            self.listed += 1;
            self.two_m.accepted += (two && slow.is_ok()) as usize;
            let refused = matches!(slow, Err(Refusal(IRREVERSIBLE, _)));
            self.two_m.refused += (two && refused) as usize;
            self.several.accepted += (many && slow.is_ok()) as usize;
            self.several.refused += (many && refused) as usize;
            if slow != fast {
                self.report("the slow mode and the fast one", &line(slow), &line(fast), &case.patterns, &case.scheme);
            }
        }
        if fast.is_ok() {
            self.counted += 1;
            for n in 0..=6 {
                let listed = listing.avoiders(n).len() as u64;
                let mut cells = vec![0; need(&scheme, n) as usize];
                let counted = count(&patterns, &scheme, n, &mut cells);
                let evaluated = plain(&patterns, &scheme, n);
                if counted != Ok(listed) || evaluated != Ok(listed) || cells.iter().any(|c| *c != 0) {
                    let found = format!("{counted:?}, {evaluated:?}");
                    self.report("counting and listing", &listed.to_string(), &found, &case.patterns, &case.scheme);
                }
            }
            // one length of random inputs, and all of the published ones
            let published = case.kind == "published";
            let n = self.random.below(LISTED);
            for n in if published { 0..LISTED + 1 } else { n..n + 1 } {
                self.listed_inversions(case, &scheme, &mut listing, n);
            }
        }
        // What was read is written back without its spaces.
        let written = (write_patterns(patterns.items()), write_scheme(&scheme.entries));
        let bare = |text: &[u8]| text.iter().copied().filter(|b| *b != b' ').collect::<Vec<u8>>();
        if written != (bare(&case.patterns), bare(&case.scheme)) {
            self.report("reading and writing back", "", "", &case.patterns, &case.scheme);
        }
    }

    fn published_counts(&mut self, p: &twin::published::Published) {
        let (Ok(patterns), Ok(scheme)) = (read_patterns(p.patterns.as_bytes()), read_scheme(p.scheme.as_bytes())) else { return };
        for (n, published) in p.counts.iter().enumerate() {
            let mut cells = vec![0; need(&scheme, n) as usize];
            let counted = count(&patterns, &scheme, n, &mut cells);
            let evaluated = if n > LONGEST_PLAIN { counted } else { plain(&patterns, &scheme, n) };
            if counted != Ok(*published) || evaluated != Ok(*published) {
                self.report("counting and the published count", &published.to_string(), &format!("{counted:?}"), p.patterns.as_bytes(), p.scheme.as_bytes());
            }
        }
    }

    fn print(&self) {
        println!("{:<28}{:>8}{:>10}", "kind", "inputs", "accepted");
        for (kind, (inputs, accepted)) in &self.kinds {
            println!("{kind:<28}{inputs:>8}{accepted:>10}");
        }
        let refused = |(number, count): (&u32, &usize)| match number {
            0 => format!("accepted {count}"),
            _ => format!("{number}: {count}"),
        };
        let verdicts: Vec<String> = self.verdicts.iter().map(refused).collect();
        println!("{} inputs judged; {}", self.verdicts.values().sum::<usize>(), verdicts.join(", "));
        println!("verdicts compared with listing: {}; schemes whose counts were compared with listing: {}", self.listed, self.counted);
        let (listed, long) = (self.listed_witnesses, self.long_witnesses);
        println!("{} refusals 11, of up to {} entries", self.witnesses, self.longest_witness);
        println!("witnesses compared with listing: {listed}, at greater lengths: {long}");
        let TwoM { judged, accepted, refused, witnesses, last } = self.two_m;
        println!("inputs with an m that is not the old one: {judged}; compared with listing up to the old one:");
        println!("  {accepted} accepted, {refused} refused 11, {witnesses} witnesses, {last} of them at total m - 1");
        let Several { judged, accepted, refused, witnesses, counted, largest } = self.several;
        println!("inputs that delete several positions together: {judged}, up to {largest} if accepted;");
        println!("  compared with listing: {accepted} accepted, {refused} refused 11, {witnesses} witnesses");
        println!("tables lent to the engine's counting: {}; counts of such inputs: {counted}", self.tables);
        let (longest, kind) = self.slowest;
        let (longest, all) = (longest.as_secs_f64() * 1e3, self.calls.as_secs_f64());
        println!("longest call of the engine: {longest:.1} ms ({kind}); all: {all:.1} s");
        self.by_inversions.print();
    }

    /// The program that judges pairs of lines says also the index and the number of compared cells.
    fn judgements(&mut self) {
        let Some(program) = engine::program("test_judge") else {
            println!("skipped: target/bin/test_judge is not there, so no index is compared");
            return;
        };
        let lines = std::mem::take(&mut self.lines);
        let mut batches: Vec<(Vec<u8>, Vec<usize>)> = vec![];
        for (i, (input, _)) in lines.iter().enumerate() {
            match batches.last_mut() {
                Some((bytes, members)) if members.len() < 150 && bytes.len() + input.len() <= 60_000 => {
                    bytes.extend(input);
                    members.push(i);
                }
                _ => batches.push((input.clone(), vec![i])),
            }
        }
        for (bytes, members) in &batches {
            STARTED.fetch_add(1, Ordering::Relaxed);
            fs::write(current(), bytes).expect("the file of the input at work");
            let output = engine::output(&program, bytes).unwrap_or_default();
            let output = String::from_utf8_lossy(&output).into_owned();
            let mut printed = output.lines();
            for &i in members {
                let (input, expected) = &lines[i];
                let found = printed.next().unwrap_or("nothing");
                if found != expected {
                    self.report("target/bin/test_judge", expected, found, input, b"");
                }
            }
            // the program lends pages of several lengths, and checks each witness by a search of
            // its own
            let shown = members.iter().filter(|i| lines[**i].1.starts_with("refused 11 ")).count();
            for begins in [format!("pairs {} wrong pages 0", members.len()), format!("witnesses {shown} wrong 0 ")] {
                let found = printed.next().unwrap_or("nothing");
                if !found.starts_with(&begins) {
                    self.report("target/bin/test_judge", &begins, found, bytes, b"");
                }
            }
        }
        println!("{} verdicts with index or compared cells compared with target/bin/test_judge", lines.len());
    }

    /// The table program, one process an input.
    fn tables(&mut self, maker: &mut Maker) {
        let Some(program) = engine::program("table") else {
            println!("skipped: target/bin/table is not there");
            return;
        };
        let inputs = table_inputs(maker);
        let mut refused = 0;
        for input in &inputs {
            STARTED.fetch_add(1, Ordering::Relaxed);
            fs::write(current(), input).expect("the file of the input at work");
            let expected = table(input);
            let found = engine::output(&program, input);
            refused += expected.starts_with(b"refused") as usize;
            if found.as_deref() != Some(&expected[..]) {
                let found = found.map_or("a fault".into(), |f| String::from_utf8_lossy(&f).into_owned());
                self.report("target/bin/table", &String::from_utf8_lossy(&expected), &found, input, b"");
            }
        }
        println!("{} inputs of target/bin/table compared, {refused} of them refused", inputs.len());
    }

    fn report(&mut self, what: &str, expected: &str, found: &str, first: &[u8], second: &[u8]) {
        self.wrong += 1;
        if self.wrong > 20 {
            return;
        }
        println!("DISAGREEMENT: {what}: expected {expected:?}, found {found:?}");
        for text in [first, second] {
            if text.len() <= 3_000 {
                println!("  {:?}", String::from_utf8_lossy(text));
                if std::str::from_utf8(text).is_err() {
                    println!("  as bytes: {text:02x?}");
                }
            } else {
                let file = current().with_file_name(format!("disagreement-{}", self.wrong));
                let text = [first, b"\n", second].concat();
                println!("  {} bytes, in {}", text.len(), file.display());
                drop(fs::write(file, text));
                break;
            }
        }
    }
}

/// The memory that counting by inversions is lent.
#[derive(Clone, PartialEq)]
struct Memory {
    table: Vec<u64>,
    results: Vec<u64>,
}

impl Memory {
    /// Numbers of which none is 0 and no two of a slice are the same.
    fn of(lent: &Lent) -> Memory {
        let junk = |length: usize| (1..=length as u64).map(|i| i.wrapping_mul(0x9e37_79b9_7f4a_7c15)).collect();
        Memory { table: junk(lent.cells), results: junk(lent.results) }
    }

    /// The results that are not as they were, how many cells of the table are not, and the first of
    /// these that do not hold 0.
    fn since(&self, before: &Memory) -> String {
        let changed = |now: &[u64], then: &[u64]| -> Vec<(usize, u64)> {
            let both = now.iter().copied().zip(then).enumerate();
            both.filter(|(_, (x, y))| x != *y).map(|(i, (x, _))| (i, x)).collect()
        };
        let (cells, results) = (changed(&self.table, &before.table), changed(&self.results, &before.results));
        let others: Vec<&(usize, u64)> = cells.iter().filter(|c| c.1 != 0).take(5).collect();
        format!("results {results:?}, {} of {} cells changed, not to 0: {others:?}", cells.len(), before.table.len())
    }
}

impl ByInversions {
    fn refused(&self, number: u32) -> usize {
        self.refused.get(&number).copied().unwrap_or(0)
    }

    fn took(&mut self, time: Duration) {
        self.calls += time;
        self.slowest = self.slowest.max(time);
    }

    fn print(&self) {
        let ByInversions { filled, longest, several, too_long, listed, .. } = self;
        let refused: Vec<String> = self.refused.iter().map(|(number, count)| format!("{number}: {count}")).collect();
        println!("calls for counts by inversions: {filled} filled, refused {}", refused.join(", "));
        println!("  at length {LONGEST_BY_INVERSIONS}: {longest}, longer: {too_long}; with sets of positions: {several}; compared with listing: {listed}");
        let (longest, all) = (self.slowest.as_secs_f64() * 1e3, self.calls.as_secs_f64());
        println!("longest call of the engine for one: {longest:.1} ms; all: {all:.1} s");
    }
}

/// The second implementation on an input of listing, where its searches do not give up.
fn list_by_twin(input: &Listed, page: &mut [u8]) -> Result<Answer, Exhausted> {
    let mut effort = Effort::of(WORDS);
    match &input.start {
        Start::Length(n) => first_within(&input.patterns, *n, page, &mut effort),
        Start::After(word) => next_within(&input.patterns, word, page, &mut effort),
    }
}

/// What became of the inputs of listing, by call.
#[derive(Default)]
struct Tally {
    given: usize,
    nothing: usize,
    refused: BTreeMap<u32, usize>,
    /// inputs of each kind, and how many of them were given an avoider
    kinds: BTreeMap<&'static str, (usize, usize)>,
    /// inputs that are left out
    skipped: usize,
    listed: usize,
    slowest: (Duration, String),
    calls: Duration,
    /// the set that was listed last
    listing: Option<(Vec<u8>, Listing)>,
}

impl Tally {
    fn count(&mut self, answer: Answer) {
        match answer {
            Ok(true) => self.given += 1,
            Ok(false) => self.nothing += 1,
            Err(Refusal(number, _)) => *self.refused.entry(number).or_default() += 1,
        }
    }

    fn took(&mut self, time: Duration, input: &Listed) {
        self.calls += time;
        if time > self.slowest.0 {
            let set = String::from_utf8_lossy(&input.patterns);
            self.slowest = (time, format!("{set}, {:?}", input.start));
        }
    }

    /// The avoider by listing.
    fn slowly(&mut self, input: &Listed) -> Option<Vec<u8>> {
        self.listed += 1;
        let listing = self.listing(&input.patterns);
        match &input.start {
            Start::Length(n) => listing.first(*n),
            Start::After(word) => listing.next(word),
        }
    }

    /// The listing of a set that can be read.
    fn listing(&mut self, set: &[u8]) -> &mut Listing {
        if self.listing.as_ref().is_none_or(|(other, _)| other != set) {
            let patterns = read_patterns(set).expect("a set that was listed");
            self.listing = Some((set.to_vec(), Listing::of(&patterns)));
        }
        let (_, listing) = self.listing.as_mut().expect("it was just put there");
        listing
    }

    fn print(&self) {
        println!("{:<28}{:>8}{:>10}", "kind of set and start", "inputs", "given");
        for (kind, (inputs, given)) in &self.kinds {
            println!("{kind:<28}{inputs:>8}{given:>10}");
        }
        let refused: Vec<String> = self.refused.iter().map(|(number, count)| format!("{number}: {count}")).collect();
        println!("calls for an avoider: {} given, {} nothing, refused {}", self.given, self.nothing, refused.join(", "));
        println!("avoiders compared with listing: {}; inputs left out after {WORDS} words: {}", self.listed, self.skipped);
        let (longest, input) = &self.slowest;
        let (longest, all) = (longest.as_secs_f64() * 1e3, self.calls.as_secs_f64());
        println!("longest call of the engine for an avoider: {longest:.1} ms ({input}); all: {all:.1} s");
    }
}

/// The most positions that an entry deletes together.
fn largest(scheme: &Scheme) -> usize {
    scheme.entries.iter().map(|e| e.rule.size()).max().unwrap_or(0)
}

/// Whether some entry deletes several positions together.
fn several(scheme: &Scheme) -> bool {
    largest(scheme) > 1
}

/// The answer of counting, and the cells of the table that are not as they were.
fn counted((answer, cells): &(Result<u64, u32>, Vec<u64>)) -> String {
    let all = cells.iter().copied().enumerate();
    let changed: Vec<(usize, u64)> = all.filter(|c| c.1 != FILL as u64).collect();
    let others: Vec<&(usize, u64)> = changed.iter().filter(|c| c.1 != 0).take(5).collect();
    format!("{answer:?}, {} of {} cells changed, not to 0: {others:?}", changed.len(), cells.len())
}

fn line(verdict: Result<usize, Refusal>) -> String {
    match verdict {
        Ok(cells) => format!("accepted {cells}"),
        Err(Refusal(number, index)) => format!("refused {number} {index}"),
    }
}

/// The line that the program prints: with refusal 11 the permutation and the positions of the copy
/// follow, each joined by commas.
fn shown_line(verdict: Result<usize, Refusal>, witness: &[u8]) -> String {
    let (permutation, copy) = witness.split_at(WITNESS / 2);
    match verdict {
        Err(Refusal(IRREVERSIBLE, _)) => format!("{} {} {}", line(verdict), joined(permutation), joined(copy)),
        _ => line(verdict),
    }
}

/// The numbers of one half of a witness, joined by commas.
fn joined(half: &[u8]) -> String {
    let numbers: Vec<String> = half[1..=half[0] as usize].iter().map(u8::to_string).collect();
    numbers.join(",")
}

/// Inputs of the table program: published schemes at every N, third lines of all kinds, lines too
/// few and too many, damaged ones.
fn table_inputs(maker: &mut Maker) -> Vec<Vec<u8>> {
    let mut inputs: Vec<Vec<u8>> = vec![];
    let join = |set: &[u8], scheme: &[u8], rest: &[u8]| [set, b"\n", scheme, b"\n", rest].concat();
    for p in published() {
        for rest in ["0", "6", "9\n", "12", "20\n"] {
            inputs.push(join(p.patterns.as_bytes(), p.scheme.as_bytes(), rest.as_bytes()));
        }
    }
    let (set, scheme) = ("{1423,1432}".as_bytes(), "{(ε,∅,∅),(1,∅,∅),(12,{⟨0,2,0⟩},{2}),(21,∅,{1})}".as_bytes());
    let schemes: [&[u8]; 4] = [scheme, "{(ε,∅,∅),(1,∅,∅),(12,∅,{2}),(21,∅,{1})}".as_bytes(), b"", b"x"];
    let thirds: [&str; 39] = [
        "", "\n", "\n\n", "0", "0\n", "1", "6", "6\n", "6\n\n", "6\n ", "6\n6", "6 ", " 6", "06", "00", "00\n", "9", "10", "19", "20", "21", "21\n", "22",
        "99", "100", "020", "+6", "-6", "6\r\n", "a", "6a", "²", "6\n\0", "\0", "6\0", "20\n\n", "1\n2\n3\n", " ", " \n",
    ];
    for scheme in schemes {
        for third in thirds {
            inputs.push(join(set, scheme, third.as_bytes()));
            inputs.push(join(b"", scheme, third.as_bytes()));
            inputs.push(join("∅".as_bytes(), scheme, third.as_bytes()));
        }
    }
    for text in ["", "\n", "\n\n", "\n\n\n", "\n\n6", "{1}", "{1}\n", "{1}\n∅", "{1}\n∅\n", "{1}\n∅\n6", "6", "6\n6\n6"] {
        inputs.push(text.into());
    }
    for exact in [exact_need(), exact_set_need()] {
        let (set, scheme) = (write_patterns(&exact.patterns), write_scheme(&exact.entries));
        for n in ["9", "10", "11", "12", "20"] {
            inputs.push(join(&set, &scheme, n.as_bytes()));
        }
    }
    for n in 0..=20 {
        inputs.push(join(b"{1234}", E_1234.as_bytes(), n.to_string().as_bytes()));
        inputs.push(join("∅".as_bytes(), PAIRS.as_bytes(), n.to_string().as_bytes()));
    }
    for (patterns, scheme, _) in together() {
        inputs.push(join(patterns.as_bytes(), scheme.as_bytes(), b"9"));
    }
    for (front, back) in [(1_019, 0), (1_020, 0), (0, 70_000), (32_768 - scheme.len(), 0), (32_769 - scheme.len(), 0), (70_000, 0), (0, 70_000)] {
        let pad = |n: usize| vec![b' '; n];
        inputs.push(join(&[pad(front), b"{123}".to_vec()].concat(), scheme, b"6"));
        inputs.push(join(set, &[pad(front), scheme.to_vec()].concat(), b"6"));
        inputs.push(join(set, &[pad(front), scheme.to_vec()].concat(), &[b"6\n".to_vec(), pad(back)].concat()));
        inputs.push(join(set, scheme, &[b"6".to_vec(), pad(back)].concat()));
        inputs.push([set.to_vec(), b"\n".to_vec(), pad(front)].concat());
        inputs.push([pad(front), b"\n\n".to_vec(), pad(back)].concat());
    }
    let mut random = Random::new(maker.random.number());
    for _ in 0..1_000 {
        let case = if random.one_in(4) { maker.next_together() } else { maker.next_case() };
        let third = match random.below(4) {
            0 => thirds[random.below(thirds.len())].to_string(),
            _ => format!("{}{}", random.below(22), if random.one_in(2) { "\n" } else { "" }),
        };
        inputs.push(join(&case.patterns, &case.scheme, third.as_bytes()));
    }
    inputs
}
