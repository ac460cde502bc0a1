//! Inputs whose entries delete several positions together.

use crate::inputs::{case, Case};
use crate::judging::violated;
use crate::model::*;
use crate::random::Random;
use crate::word::{deleted, position_sets};

/// The scheme of document 004, section 5.5, for {1234}.
pub const E_1234: &str = "{(ε,∅,∅),(1,∅,∅),(12,∅,∅),(21,∅,{1}),(123,{⟨0,0,0,1⟩},{3}),(132,∅,{2}),\
    (231,∅,∅),(2413,∅,{1,2}),(3412,∅,{1,2}),(2314,{⟨0,0,0,0,1⟩},{4}),(3421,∅,{3})}";

/// A scheme without patterns that deletes prefixes of length 2 as a whole.
pub const PAIRS: &str = "{(ε,∅,∅),(1,∅,∅),(12,∅,{1,2}),(21,∅,{1,2})}";

/// Texts that are damaged at every byte.
pub const SPACED: [(&str, &str); 3] = [
    ("∅", PAIRS),
    ("{12}", "{(ε,∅,∅),(1,{⟨0,1⟩},∅),(12,{⟨0,0,0⟩},{1,2}),(21,{⟨0,1,0⟩,⟨0,0,1⟩},{1,2})}"),
    ("{132}", "{(ε,∅,∅),(1,∅,∅),(12,{⟨0,1,0⟩},{1,2}),(21,∅,{1}),(123456,∅,{1,2,3,4,5,6})}"),
];

/// A set, a scheme and the verdict, with the number of compared cells or the index.
type Judged = (&'static str, String, &'static str);

/// Inputs of order 4 that were worked out by hand.
pub fn together() -> Vec<Judged> {
    let mut inputs = claims();
    inputs.extend(PLACES.map(|(scheme, verdict)| ("∅", scheme.to_string(), verdict)));
    inputs.extend(THIRD_PARTS.map(|(third, verdict)| ("∅", with_third_part(third), verdict)));
    inputs.extend([6, 7, 300, 16_000, 16_500].map(ones));
    inputs
}

/// Well-formed schemes, of which the claims decide.
fn claims() -> Vec<Judged> {
    let mut inputs: Vec<Judged> = vec![];
    let mut add = |set, scheme: &str, verdict| inputs.push((set, scheme.to_string(), verdict));
    add("{1234}", E_1234, "accepted 278");
    add("∅", PAIRS, "accepted 0");
    // each position of 12 can go alone, both together cannot
    for (set, verdict) in [("1", "accepted 16"), ("2", "accepted 16"), ("1,2", "refused 11 2")] {
        let scheme = format!("{{(ε,∅,∅),(1,∅,∅),(12,{{⟨0,1,0⟩}},{{{set}}}),(21,∅,{{1}})}}");
        add("{132}", &scheme, verdict);
    }
    add("{132}", "{(ε,∅,∅),(1,∅,∅),(12,{⟨0,1,0⟩},{1}),(21,∅,{1,2})}", "refused 11 3");
    // the whole prefix goes, and the target is ε
    let (front, back) = ("{(ε,∅,∅),(1,{⟨0,1⟩},∅),(12,{⟨0,0,0⟩},{1,2}),(21,{", "},{1,2})}");
    add("{12}", &format!("{front}⟨0,1,0⟩,⟨0,0,1⟩{back}"), "accepted 2");
    add("{12}", &format!("{front}⟨0,1,0⟩{back}"), "refused 11 3");
    // six of six
    let (front, back) = ("{(ε,∅,∅),(1,{⟨0,1⟩},{1}),(654321,", ",{1,2,3,4,5,6})}");
    let digit = |set: bool| if set { ",1" } else { ",0" };
    let above = |i: usize| format!("⟨0{}⟩", (1..7).map(|at| digit(at == i)).collect::<String>());
    let all: Vec<String> = (1..7).map(above).collect();
    add("{12}", &format!("{front}{{{}}}{back}", all.join(",")), "accepted 4");
    add("{12}", &format!("{front}{{{}}}{back}", all[1..].join(",")), "refused 11 2");
    add("{12}", &format!("{front}∅{back}"), "refused 11 2");
    inputs
}

/// Schemes without patterns: 7 comes after 6 of every entry and before 8 of any; for 9, the prefix
/// 12345 is 123 without 1 and 2, and 12 without 1, 2 and 3.
const PLACES: [(&str, &str); 8] = [
    ("{(ε,∅,{1,2}),(1,∅,{1})}", "refused 7 0"),
    ("{(ε,∅,∅),(1,∅,{1,2})}", "refused 7 1"),
    ("{(1,∅,{2,1})}", "refused 5 0"),
    ("{(ε,∅,∅),(1,∅,{1}),(12,∅,{2,1}),(21,{⟨0⟩},{1})}", "refused 6 3"),
    ("{(ε,∅,∅),(12,∅,{2,1})}", "refused 7 1"),
    ("{(ε,∅,∅),(1,∅,{1}),(12,∅,{1,2}),(12345,∅,{1,2})}", "refused 9 3"),
    ("{(ε,∅,∅),(1,∅,{1}),(12,∅,{1,2}),(12345,∅,{1,2,3})}", "accepted 0"),
    ("{(ε,∅,∅),(1,∅,{1}),(654321,∅,{1,2,3,4,5,6})}", "accepted 0"),
];

/// A scheme of four entries, with a third part for 12, which has index 2.
fn with_third_part(third: &str) -> String {
    format!("{{(ε,∅,∅),(1,∅,∅),(12,∅,{third}),(21,∅,{{1}})}}")
}

/// A set of so many positions has no ceiling of its own; the text has one.
fn ones(count: usize) -> Judged {
    let scheme = with_third_part(&format!("{{{}}}", vec!["1"; count].join(",")));
    let verdict = if scheme.len() > SCHEME_TEXT { "refused 2 0" } else { "refused 7 2" };
    ("∅", scheme, verdict)
}

/// Third parts of the entry 12 in a scheme without patterns.
const THIRD_PARTS: [(&str, &str); 26] = [
    ("{1}", "accepted 0"),
    ("{1,2}", "accepted 0"),
    (" { 1 , 2 } ", "accepted 0"),
    ("∅", "refused 8 2"),
    ("{2,1}", "refused 7 2"),
    ("{1,1}", "refused 7 2"),
    ("{2,2}", "refused 7 2"),
    ("{0}", "refused 7 2"),
    ("{0,1}", "refused 7 2"),
    ("{1,0}", "refused 7 2"),
    ("{3}", "refused 7 2"),
    ("{1,3}", "refused 7 2"),
    ("{1,2,3}", "refused 7 2"),
    ("{1,999}", "refused 7 2"),
    ("{}", "refused 1 0"),
    ("{1,}", "refused 1 0"),
    ("{,1}", "refused 1 0"),
    ("{1,,2}", "refused 1 0"),
    ("{01}", "refused 1 0"),
    ("{1,02}", "refused 1 0"),
    ("{1 2}", "refused 1 0"),
    ("{1000}", "refused 1 0"),
    ("{1,1000}", "refused 1 0"),
    ("{1,2", "refused 1 0"),
    ("{1;2}", "refused 1 0"),
    ("1,2", "refused 1 0"),
];

/// Sets of positions that every run has: each small list of numbers, at several prefixes; and long
/// ones.
pub fn fixed_sets(cases: &mut Vec<Case>) {
    for prefix in ["ε", "1", "12", "21", "312", "654321"] {
        for positions in small_lists() {
            let entry = format!("({prefix},∅,{{{positions}}})");
            let scheme = format!("{{(ε,∅,∅),(1,∅,∅),(12,∅,{{1,2}}),{entry},(21,∅,{{1}})}}");
            cases.push(case("lists of positions", "∅", &scheme));
            let scheme = format!("{{{entry},(ε,∅,∅),(1,∅,{{1}})}}");
            cases.push(case("lists of positions", "{132}", &scheme));
        }
    }
    for count in [6, 7, 8, 12, 255, 256, 257, 258, 262, 263, 300, 512, 1_000, 16_000, 16_400] {
        for positions in long_lists(count) {
            let entry = format!("(123456,∅,{{{positions}}})");
            for scheme in [
                format!("{{(ε,∅,∅),{entry},(1,∅,{{1}})}}"),
                format!("{{{entry},(ε,∅,∅)}}"),
                format!("{{(ε,∅,∅),(1,{{⟨0⟩}},{{1}}),{entry}}}"),
                format!("{{{entry},(1,∅,{{1}})}}"),
            ] {
                cases.push(case("a long set of positions", "∅", &scheme));
            }
        }
    }
}

/// The lists of up to three numbers from 0 to 4, as texts.
fn small_lists() -> Vec<String> {
    let digits = ["0", "1", "2", "3", "4"];
    let longer = |list: &String| digits.map(|d| format!("{list},{d}"));
    let ones = digits.map(String::from).to_vec();
    let twos: Vec<String> = ones.iter().flat_map(longer).collect();
    let threes: Vec<String> = twos.iter().flat_map(longer).collect();
    [ones, twos, threes].concat()
}

/// Lists of so many positions: all the same, rising as far as three digits go, and rising within
/// the prefix with the rest behind.
fn long_lists(count: usize) -> [String; 3] {
    let same = vec![1; count];
    let rising: Vec<usize> = (1..=count).map(|i| i.min(999)).collect();
    let within: Vec<usize> = (1..=count).map(|i| i.min(PREFIX_LENGTH)).collect();
    let text = |r: &usize| r.to_string();
    [same, rising, within].map(|list| list.iter().map(text).collect::<Vec<String>>().join(","))
}

/// Some of the positions 1 to k, at least one, ascending; half of the time a single one.
pub fn random_set(r: &mut Random, k: usize) -> Vec<u16> {
    if r.one_in(2) {
        return vec![r.within(1, k) as u16];
    }
    r.pick(&position_sets(k)).clone()
}

/// The sets of positions that an entry can delete together and whose target is listed.
pub fn true_sets(basis: &[Pattern], entry: &Entry, listed: &[Prefix]) -> Vec<Vec<u16>> {
    let (prefix, vectors) = (entry.prefix.items(), entry.vectors.items());
    let leads = |set: &Vec<u16>| listed.contains(&Prefix::of(deleted(prefix, set).items()));
    let works = |set: &Vec<u16>| leads(set) && !violated(basis, prefix, vectors, set);
    position_sets(entry.prefix.count()).into_iter().filter(works).collect()
}

/// Changes the positions that an entry deletes, or has it delete some; what was done.
pub fn damage_set(r: &mut Random, entry: &mut Entry) -> &'static str {
    let k = entry.prefix.count();
    let mut set = match &entry.rule {
        Rule::Delete(set) => set.items().to_vec(),
        Rule::Expand => random_set(r, k.max(1)),
    };
    let kind = change_set(r, k, &mut set);
    entry.rule = Rule::deleting(&set);
    kind
}

/// Changes a set of positions of a prefix of length k.
fn change_set(r: &mut Random, k: usize, set: &mut Vec<u16>) -> &'static str {
    if set.is_empty() {
        return "no position";
    }
    let (at, other) = (r.below(set.len()), r.below(set.len()));
    match r.below(7) {
        0 => {
            set.push(r.within(1, k.max(1)) as u16);
            set.sort();
            "a position more"
        }
        1 => {
            set.remove(at);
            "a position dropped"
        }
        2 => {
            set.insert(at, set[at]);
            "a position doubled"
        }
        3 => {
            set.swap(at, other);
            "positions exchanged"
        }
        4 => {
            set[at] = 0;
            "a position 0"
        }
        5 => {
            set[at] = *r.pick(&[k as u16 + 1, 7, 9, 255, 256, 257, 999]);
            "a position beyond"
        }
        _ => {
            *set = random_set(r, k.max(1));
            "another set"
        }
    }
}

/// Puts a long list of positions in place of one that stands in the text of a scheme.
pub fn long_set(r: &mut Random, scheme: &mut Vec<u8>) {
    let pairs = scheme.windows(2).enumerate();
    let opens = pairs.filter(|(_, two)| two[0] == b'{' && two[1].is_ascii_digit());
    let places: Vec<usize> = opens.map(|(at, _)| at).collect();
    if places.is_empty() {
        return;
    }
    let count = *r.pick(&[7, 8, 20, 255, 256, 257, 300, 5_000]);
    let list = r.pick(&long_lists(count)).clone();
    let at = *r.pick(&places) + 1;
    let end = at + scheme[at..].iter().position(|b| *b == b'}').unwrap_or(0);
    scheme.splice(at..end, list.into_bytes());
}
