//! The inputs of the differential test: a set's text and a scheme's, of many kinds.

use crate::finder::{decide, empty_vectors, find, Choice};
use crate::judging::{basis, longest};
use crate::listing::LISTED;
use crate::model::*;
use crate::notation::{pattern_pieces, read_patterns, read_scheme, scheme_pieces};
use crate::notation::{write_patterns, write_scheme};
use crate::published::published;
use crate::random::Random;
use crate::set_inputs::{damage_set, fixed_sets, long_set, random_set, together, true_sets, SPACED};
use crate::word::{child, deleted, position_sets};
use crate::worst::*;

pub struct Case {
    pub kind: &'static str,
    pub patterns: Vec<u8>,
    pub scheme: Vec<u8>,
}

pub fn case(kind: &'static str, patterns: impl AsRef<[u8]>, scheme: impl AsRef<[u8]>) -> Case {
    Case { kind, patterns: patterns.as_ref().to_vec(), scheme: scheme.as_ref().to_vec() }
}

/// A set and a scheme as lists.
#[derive(Clone)]
pub struct Pair {
    pub patterns: Vec<Pattern>,
    pub entries: Vec<Entry>,
}

const SET: &str = "{123}";
const SCHEME: &str = "{(ε,∅,∅),(1,∅,∅),(12,{⟨0,0,1⟩},{2}),(21,∅,{1})}";

/// The pieces of both texts of a pair, with spaces before the pieces that the test names.
fn spaced(pair: &Pair, mut spaces: impl FnMut() -> usize) -> (Vec<u8>, Vec<u8>) {
    let mut join = |pieces: Vec<String>| {
        let mut text = String::new();
        for piece in pieces {
            text.extend(std::iter::repeat_n(' ', spaces()));
            text.push_str(&piece);
        }
        text.extend(std::iter::repeat_n(' ', spaces()));
        text.into_bytes()
    };
    (join(pattern_pieces(&pair.patterns)), join(scheme_pieces(&pair.entries)))
}

/// The inputs that every run has: the published schemes, a space in every place, and both sides of
/// each ceiling.
pub fn fixed() -> Vec<Case> {
    let mut cases = vec![];
    for p in published() {
        cases.push(case("published", p.patterns, p.scheme));
    }
    let papers = published();
    let spaced = papers.iter().take(12).map(|p| (p.patterns, p.scheme)).chain(SPACED);
    for (patterns, scheme) in spaced {
        for (text, other, first) in [(patterns, scheme, true), (scheme, patterns, false)] {
            for at in 0..=text.len() {
                for byte in [b' ', b'\t', b'0', b','] {
                    let mut bytes = text.as_bytes().to_vec();
                    bytes.insert(at, byte);
                    let kind = if byte == b' ' { "a space in every place" } else { "a byte more in every place" };
                    cases.push(if first { case(kind, bytes, other) } else { case(kind, other, bytes) });
                }
                let cut = &text.as_bytes()[..at];
                cases.push(if first { case("cut at every byte", cut, other) } else { case("cut at every byte", other, cut) });
            }
        }
    }
    ceilings(&mut cases);
    for (patterns, scheme, ..) in examples() {
        cases.push(case("examples of witnesses", patterns, scheme));
    }
    wrong_deletions(&mut cases);
    for (patterns, scheme, _) in lengthened() {
        cases.push(case("examples of order 3", patterns, scheme));
    }
    for (patterns, scheme, _) in together() {
        cases.push(case("examples of order 4", patterns, scheme));
    }
    fixed_sets(&mut cases);
    cases
}

/// Inputs that are refused 11 and were worked out by hand: the set, the scheme, the permutation
/// shown and the positions of the copy.
pub fn examples() -> Vec<(&'static str, &'static str, &'static [u8], &'static [u8])> {
    let tree = "{(132,∅,{1}),(21,∅,{1}),(1,∅,{1}),(ε,∅,∅)}";
    let root = "{(ε,∅,∅),(1,∅,{1})}";
    let falling = "{(ε,∅,∅),(654321,∅,{6}),(54321,∅,{1}),(4321,∅,{1}),(321,∅,{1}),(21,∅,{1}),(1,∅,{1})}";
    vec![
        ("{123}", "{(ε,∅,∅),(1,∅,∅),(12,{⟨0,0,1⟩},{1}),(21,∅,{1})}", &[1, 4, 2, 3], &[1, 3, 4]),
        ("{123}", "{(ε,∅,∅),(1,∅,∅),(12,∅,{1}),(21,∅,{1})}", &[1, 2, 3], &[1, 2, 3]),
        ("{123,231}", "{(ε,∅,∅),(1,∅,∅),(12,{⟨1,0,0⟩,⟨0,0,1⟩},{1}),(21,{⟨0,1,1⟩},{1})}", &[1, 4, 2, 3], &[1, 3, 4]),
        ("{132,12}", tree, &[1, 3, 2], &[1, 2, 3]),
        ("{12,132}", tree, &[1, 3, 2], &[1, 2]),
        ("{1}", root, &[1], &[1]),
        ("{1423,1234}", root, &[1, 2, 3, 4], &[1, 2, 3, 4]),
        ("{1234,1423}", root, &[1, 2, 3, 4], &[1, 2, 3, 4]),
        ("{12345678}", falling, &[7, 6, 5, 4, 3, 1, 2, 8, 9, 10, 11, 12, 13], &[6, 7, 8, 9, 10, 11, 12, 13]),
        // several positions together: each of 12 could go alone; the whole prefix; six of six
        ("{132}", "{(ε,∅,∅),(1,∅,∅),(12,{⟨0,1,0⟩},{1,2}),(21,∅,{1})}", &[1, 2, 4, 3], &[1, 3, 4]),
        ("{132}", "{(ε,∅,∅),(1,∅,∅),(12,{⟨0,1,0⟩},{1}),(21,∅,{1,2})}", &[2, 1, 4, 3], &[1, 3, 4]),
        ("{12}", "{(ε,∅,∅),(654321,∅,{1,2,3,4,5,6}),(1,∅,{1})}", &[6, 5, 4, 3, 2, 1, 7], &[1, 7]),
        ("{321}", "{(ε,∅,∅),(2413,∅,{1,2,3}),(1,∅,{1})}", &[2, 5, 1, 4, 3], &[2, 4, 5]),
    ]
}

/// Inputs of order 3 that were worked out by hand, most of them with patterns that contain another
/// one: the set, the scheme and the verdict, with the number of compared cells or the index.
pub fn lengthened() -> Vec<(String, &'static str, &'static str)> {
    let wrong = "{(ε,∅,∅),(1,∅,∅),(12,{⟨0,0,1⟩},{1}),(21,∅,{1})}";
    let live = "{(ε,∅,∅),(1,∅,∅),(12,{⟨0,1,0⟩},{2}),(21,∅,{1})}";
    let (falling, falling_wrong) = ("{(ε,∅,∅),(1,{⟨0,1⟩},{1})}", "{(ε,∅,∅),(1,∅,{1})}");
    let (nothing, nothing_wrong) = ("{(ε,{⟨1⟩},∅),(1,{⟨0,0⟩},{1})}", "{(ε,∅,∅),(1,∅,{1})}");
    let mut inputs: Vec<(String, &str, &str)> = vec![];
    let mut add = |set: &str, scheme, verdict| inputs.push((set.to_string(), scheme, verdict));
    for set in ["{123}", "{123,12345}", "{12345,123}", "{1234,123,12345}", "{12345678,1234567,123456,12345,1234,123}"] {
        add(set, SCHEME, "accepted 16");
        add(set, wrong, "refused 11 2");
        add(set, live, "refused 10 2");
    }
    for set in ["{12,132,1432}", "{12,1432,132}", "{132,12,1432}", "{132,1432,12}", "{1432,12,132}", "{1432,132,12}"] {
        add(set, falling, "accepted 2");
        add(set, falling_wrong, "refused 11 1");
    }
    for set in ["{1,21,321}", "{321,21,1}", "{12345678,1}", "{12,1,21}"] {
        add(set, nothing, "accepted 0");
        add(set, nothing_wrong, "refused 11 1");
    }
    // the deletion of 1 is false at total 2 alone, the last one that is compared
    for set in ["{12,321,1234}", "{1234,12,321}", "{321,12345678,12}"] {
        add(set, falling, "refused 11 1");
        add(set, "{(ε,∅,∅),(1,{⟨0,1⟩,⟨2,0⟩},{1})}", "accepted 2");
    }
    // the longest pattern contains no other one, though another of its length does
    add("{12,1234,4321}", "{(ε,∅,∅),(1,{⟨0,1⟩,⟨3,0⟩},{1})}", "accepted 3");
    add("{12,1234,4321}", falling, "refused 11 1");
    // 24 patterns, of which 23 contain the last one
    let last_ones = [("12", falling, "accepted 2"), ("1", nothing, "accepted 0"), ("123", SCHEME, "accepted 16"), ("123", wrong, "refused 11 2")];
    for (last, scheme, verdict) in last_ones {
        let mut set = beginning_with(&[1, 2, 3, 4])[..PATTERNS - 1].to_vec();
        set.push(Pattern::of(&last.bytes().map(|d| d - b'0').collect::<Vec<u8>>()));
        add(&String::from_utf8_lossy(&write_patterns(&set)), scheme, verdict);
    }
    for set in ["{123,123}", "{12345,12345,123}"] {
        add(set, SCHEME, "refused 4 1");
    }
    add("{12345,123,12345}", SCHEME, "refused 4 2");
    add("∅", falling_wrong, "accepted 0");
    add("{}", falling_wrong, "refused 1 0");
    inputs
}

/// The published schemes with other positions put in for those that an entry deletes, or for an
/// expansion: each single one, and some of the sets; the patterns as they are, and with a
/// superfluous one in front or behind.
fn wrong_deletions(cases: &mut Vec<Case>) {
    let mut random = Random::new(1);
    for p in published() {
        let Ok(patterns) = read_patterns(p.patterns.as_bytes()) else { continue };
        let Ok(scheme) = read_scheme(p.scheme.as_bytes()) else { continue };
        for (i, entry) in scheme.entries.iter().enumerate() {
            for positions in position_sets(entry.prefix.count()) {
                let rule = Rule::deleting(&positions);
                if entry.rule == rule || (positions.len() > 1 && !random.one_in(4)) {
                    continue;
                }
                let (mut set, mut entries) = (patterns.items().to_vec(), scheme.entries.clone());
                entries[i].rule = rule;
                let mut kind = if positions.len() > 1 { "a wrong set" } else { "a wrong deletion" };
                if random.one_in(3) && add_superfluous(&mut random, &mut set) {
                    kind = "a superfluous pattern";
                }
                cases.push(case(kind, write_patterns(&set), write_scheme(&entries)));
            }
        }
    }
}

/// Puts a pattern that contains another one somewhere into a set; whether it could.
pub fn add_superfluous(random: &mut Random, patterns: &mut Vec<Pattern>) -> bool {
    if patterns.is_empty() || patterns.len() >= PATTERNS {
        return false;
    }
    let member = *random.pick(patterns);
    let length = member.count() + random.within(1, 2);
    let longer = extended(random, &member, length);
    if length > PATTERN_LENGTH || patterns.contains(&longer) {
        return false;
    }
    patterns.insert(random.below(patterns.len() + 1), longer);
    true
}

/// A permutation of a length that contains the pattern: values are put in at random places.
fn extended(random: &mut Random, pattern: &Pattern, length: usize) -> Pattern {
    let mut word = pattern.items().to_vec();
    while word.len() < length {
        let value = random.within(1, word.len() + 1) as u8;
        word.iter_mut().for_each(|x| *x += (*x >= value) as u8);
        word.insert(random.below(word.len() + 1), value);
    }
    Pattern::of(&word)
}

/// Where a pattern is put into a set.
#[derive(Clone, Copy)]
enum Place {
    Front,
    Behind,
    Anywhere,
}

/// Puts patterns of at most a length that contain a member into a set; how it was done. A set that
/// has no member shorter than that stays as it is.
fn lengthen(r: &mut Random, patterns: &mut Vec<Pattern>, longest: usize) -> &'static str {
    let short: Vec<Pattern> = patterns.iter().filter(|p| p.count() < longest).copied().collect();
    if short.is_empty() || patterns.len() >= PATTERNS {
        return "a set as it was found";
    }
    let member = *r.pick(&short);
    let (kind, place, count, chained) = match r.below(7) {
        0 => ("a longer pattern in front", Place::Front, 1, false),
        1 => ("a longer pattern anywhere", Place::Anywhere, 1, false),
        2 => ("a longer pattern behind", Place::Behind, 1, false),
        3 | 4 => ("a chain of patterns", *r.pick(&[Place::Front, Place::Behind, Place::Anywhere]), r.within(2, 5), true),
        5 => ("several above one", Place::Anywhere, r.within(2, 5), false),
        _ => ("many above one", Place::Anywhere, PATTERNS, false),
    };
    let mut below = member;
    for _ in 0..count {
        if below.count() == longest || patterns.len() == PATTERNS {
            break;
        }
        let length = if chained { below.count() + 1 } else { r.within(below.count() + 1, longest) };
        let longer = extended(r, &below, length);
        if !patterns.contains(&longer) {
            let at = match place {
                Place::Front => 0,
                Place::Behind => patterns.len(),
                Place::Anywhere => r.below(patterns.len() + 1),
            };
            patterns.insert(at, longer);
        }
        if chained {
            below = longer;
        }
    }
    kind
}

fn ceilings(cases: &mut Vec<Case>) {
    let mut set = |text: String| {
        cases.push(case("ceilings of a set", &text, SCHEME));
        cases.push(case("ceilings of a set", text.replace('{', " { "), "{(ε,∅,∅)}"));
    };
    for length in [1_000, 1_023, 1_024, 1_025, 1_026, 2_048, 40_000] {
        for (front, text) in [(true, "{123}"), (false, "{123}"), (true, "{123"), (false, "∅"), (true, ""), (true, "{12, 3}}")] {
            let pad = " ".repeat(length - text.len());
            set(if front { format!("{pad}{text}") } else { format!("{text}{pad}") });
        }
        set(format!("{{1{}2}}", " ".repeat(length - 4)));
        set(format!("{{{}}}", "1".repeat(length - 2)));
    }
    for digits in [1, 2, 7, 8, 9, 10, 15, 16, 17, 255, 256, 257, 262, 263, 264, 265, 512, 520, 1_000] {
        let run: String = (0..digits).map(|i| char::from(b'1' + (i % 9) as u8)).collect();
        set(format!("{{{run}}}"));
        set(format!("{{1,{run},{run}}}"));
        set(format!("{{11,{run}}}"));
    }
    for count in [1, 2, 23, 24, 25, 26, 48, 255, 256, 257, 280, 281, 400] {
        let all = all_permutations(4);
        let distinct: Vec<String> = (0..count).map(|i| all.get(i).cloned().unwrap_or("12345".into())).collect();
        set(format!("{{{}}}", distinct[..count.min(200)].join(",")));
        set(format!("{{{}}}", vec!["1"; count].join(",")));
        set(format!("{{{},}}", vec!["1"; count].join(",")));
        set(format!("{{{},123456789}}", vec!["1"; count].join(",")));
    }
    for text in [
        "", " ", "∅", "{}", "{ }", "{ε}", "{1,ε}", "{ε,1}", "{0}", "{01}", "{10}", "{1234567890}", "{012345678}", "{123456789}", "{12,12}", "{1,12,1,12}",
        "{1,2}", "{12,21,11}", "{1}{1}", "{1,}", "{,1}", "{1 1}", "{1\n}", "{1\r}", "{(1)}", "1", "ε", "∅∅", "{∅}", "{{1}}", "[1]", "{1;2}", "{87654321}",
        "{12345678,12345678}", "{9}", "{19}", "{1,2,99999999999}", "{0,00000000000}", "{⟨1⟩}", "{-1}", "{+1}", "{1.}", "{１}", "{132,0132}",
    ] {
        set(text.into());
    }

    let mut scheme = |text: String| {
        cases.push(case("ceilings of a scheme", SET, &text));
        cases.push(case("ceilings of a scheme", "∅", &text));
        cases.push(case("both faulty", "{123", &text));
        cases.push(case("both faulty", "{1,1}", &text));
    };
    for length in [32_000, 32_767, 32_768, 32_769, 32_770, 65_536, 65_800] {
        for (front, text) in [(true, SCHEME), (false, SCHEME), (true, "{(ε,∅,∅)"), (false, "∅"), (true, ""), (true, "{(1,∅,{1})}")] {
            let pad = " ".repeat(length - text.len());
            scheme(if front { format!("{pad}{text}") } else { format!("{text}{pad}") });
        }
        let (front, back) = SCHEME.split_at(SCHEME.len() - 1);
        scheme(format!("{front}{}{back}", " ".repeat(length - SCHEME.len())));
    }
    for entries in [1, 2, 127, 128, 129, 130, 255, 256, 257, 258, 384, 2_000] {
        let prefixes = prefixes(entries);
        let listed: Vec<String> = prefixes.iter().map(|p| if p == "ε" { "(ε,∅,∅)".into() } else { format!("({p},∅,{{1}})") }).collect();
        scheme(format!("{{{}}}", listed.join(",")));
        scheme(format!("{{{}}}", vec!["(ε,∅,∅)"; entries].join(",")));
        scheme(format!("{{{}}}", vec!["(1234567,∅,∅)"; entries].join(",")));
        scheme(format!("{{{},(1,∅)}}", vec!["(ε,∅,∅)"; entries].join(",")));
    }
    let around = |entry: String| format!("{{(ε,∅,∅),(1,∅,∅),{entry},(21,∅,{{1}}),(12,∅,{{1}})}}");
    for digits in [1, 2, 3, 5, 6, 7, 8, 9, 10, 12, 255, 256, 257, 258, 260, 262, 263, 1_000, 20_000] {
        let run: String = (0..digits).map(|i| char::from(b'1' + (i % 9) as u8)).collect();
        for rule in ["∅", "{1}", "{2}", "{6}", "{7}"] {
            scheme(around(format!("({run},∅,{rule})")));
        }
    }
    for vectors in [1, 7, 8, 9, 10, 16, 255, 256, 257, 263, 264, 265, 1_000] {
        let distinct: Vec<String> = (0..vectors).map(|i| format!("⟨{},{}⟩", i % 3, i / 3 % 3)).collect();
        scheme(format!("{{(ε,∅,∅),(1,{{{}}},{{1}})}}", distinct.join(",")));
        scheme(format!("{{(ε,∅,∅),(1,{{{}}},{{1}})}}", vec!["⟨0,1⟩"; vectors].join(",")));
        scheme(format!("{{(ε,∅,∅),(1,{{{}}},{{1}})}}", vec!["⟨9⟩"; vectors].join(",")));
    }
    for components in [1, 2, 3, 6, 7, 8, 9, 16, 255, 256, 257, 258, 259, 260, 262, 263, 1_000] {
        for fill in ["0", "1", "2", "8", "9"] {
            let vector = format!("⟨{}⟩", vec![fill; components].join(","));
            for prefix in ["1", "12", "123456"] {
                scheme(around(format!("({prefix},{{{vector}}},{{1}})")));
                scheme(format!("{{(ε,∅,∅),(1,∅,∅),(21,∅,{{1}}),({prefix},{{{vector}}},{{1}})}}"));
                scheme(format!("{{(ε,∅,∅),({prefix},{{{vector}}},{{1}})}}"));
            }
        }
    }
    for vector in [
        "8", "9", "0", "00", "01", "08", "10", "99", "100", "255", "256", "257", "264", "265", "512", "999", "1000", "010", "0000", "", " ", "-1", "+1", "1 1",
        "1.", "0,8", "8,0", "4,4", "4,5", "8,1", "1,8", "9,0", "0,9", "128,128", "255,1", "256,0", "0,256", "250,6", "255,2", "999,999", "7,1", "7,2", "1,00",
        "1,", ",1", "65535", "65536", "0,0,8", "8,8,8", "3,3,2", "3,3,3",
    ] {
        for prefix in ["ε", "1", "12"] {
            scheme(format!("{{(ε,∅,∅),(1,∅,∅),({prefix},{{⟨{vector}⟩}},{{1}}),(21,∅,{{1}})}}"));
            scheme(format!("{{({prefix},{{⟨{vector}⟩}},{{1}}),(ε,∅,∅)}}"));
            scheme(format!("{{({prefix},{{⟨{vector}⟩}},∅),(1,∅,{{1}})}}"));
        }
    }
    for position in [
        "0", "1", "2", "3", "6", "7", "8", "9", "10", "99", "254", "255", "256", "257", "258", "259", "262", "512", "513", "999", "1000", "01", "00", "001",
        "", " ", "1,1", "1,2", "-1", "∅", "ε", "1 ", " 1", " 1 ", "1 2", "{1}", "2,1", "1,2,3", "1,3", "0,1", "1,0", "1,7", "1,", ",1", ",", "1,,2", "1, 2",
        " 1 , 2 ", "01,2", "1,02", "1,999", "1,1000", "1000,1", "1,2,2", "1;2", "1 2,3", "2,3,1", "1,2,3,4,5,6", "1,2,3,4,5,6,7", "0,1,2,3,4,5,6",
        "1,2,3,4,6,5", "1,2,3,4,5,5", "1,257", "1,256", "257,258", "1,{2}", "1,∅", "⟨1,2⟩", "1.2",
    ] {
        for prefix in ["ε", "1", "12", "21", "123", "123456"] {
            scheme(format!("{{(ε,∅,∅),(1,∅,∅),({prefix},∅,{{{position}}}),(21,∅,{{1}})}}"));
            scheme(format!("{{(ε,∅,∅),(1,∅,{{1}}),({prefix},∅,{{{position}}})}}"));
        }
    }
    let mut small = vec![];
    for text in [
        "∅", " ∅ ", "{}", "{∅}", "{(ε,∅,∅)}", "{(ε,∅,{1})}", "{(ε,∅,{0})}", "{(∅,∅,∅)}", "{(,∅,∅)}", "{(ε,,∅)}", "{(ε,∅,)}", "{(ε,{},∅)}", "{(ε,∅,{})}",
        "{(ε,{⟨⟩},∅)}", "{(ε,∅,∅),}", "{,(ε,∅,∅)}", "{(ε,∅,∅)(1,∅,{1})}", "{((ε,∅,∅))}", "(ε,∅,∅)", "{(ε,∅,∅)}}", "{(ε,∅,∅)},", "{(ε,∅,∅,∅)}", "{(ε,∅)}",
        "{(1,∅,{1})}", "{(0,∅,∅)}", "{(2,∅,∅)}", "{(11,∅,∅)}", "{(10,∅,∅)}", "{(ε,ε,∅)}", "{(ε,∅,ε)}", "{(ε,⟨0⟩,∅)}", "{(ε,{0},∅)}", "{(ε,{(0)},∅)}",
        "{(ε,{⟨0⟩,},∅),(1,∅,{1})}", "{(ε,{⟨1⟩,⟨1⟩},∅),(1,∅,{1})}", "{(ε,{⟨0⟩,⟨0,0⟩},∅),(1,∅,{1})}", "{(ε,∅,∅),(ε,∅,∅)}", "{(1,∅,{1}),(1,∅,{1})}",
        "{(ε,∅,∅),(1,∅,{1}),(ε,∅,∅),(12,∅,{7})}", "{(ε,∅,∅),(12,∅,{1})}", "{(ε,∅,∅),(1,∅,∅),(12,∅,{1})}", "{(ε,∅,∅),(1,∅,{1}),(123,∅,{1})}",
        "{(123456,∅,∅),(ε,∅,∅),(1,∅,{1})}", "{(εε,∅,∅)}", "{(ε1,∅,∅)}", "{(1ε,∅,∅)}", "{(ε,∅∅,∅)}", "{(ε,∅,∅);(1,∅,{1})}",
        "{ ( ε , ∅ , ∅ ) , ( 1 , { ⟨ 0 , 0 ⟩ } , { 1 } ) }", "{(ε,∅,∅),(1,{⟨0,0⟩},{1})}", "{(ε,{⟨0⟩},∅),(1,{⟨0,0⟩},{1})}",
    ] {
        scheme(text.into());
        small.push(text);
    }
    for text in small {
        for set in ["{1}", "{12}", "{21,12}", "{1,12345678}"] {
            cases.push(case("small schemes", set, text));
        }
    }
    let mut pairs = vec![exact_need(), unpatterned(128), short_basis(), own_basis(), long_text()];
    pairs.extend([exact_set_need(), own_basis_together()]);
    pairs.extend([2, 3, 5].map(|size| true_deletions_of(size, beginning_with(&[1, 2, 3, 4]), 30)));
    pairs.extend([late_gap_vectors(), late_witness(), gap_vectors(5, 96, 2), gap_vectors(6, 4, 2)]);
    for set in [beginning_low(1), beginning_with(&[2, 1, 4, 3]), beginning_with(&[5, 6, 7, 8]), ending_with(&[8, 7, 6, 5])] {
        let mut pair = true_deletions(set, 30);
        pairs.push(with_live_gap(pair.clone()));
        pair.entries.rotate_right(1);
        pairs.push(pair);
    }
    for pair in pairs {
        cases.push(case("long prefixes", write_patterns(&pair.patterns), write_scheme(&pair.entries)));
    }
}

fn all_permutations(n: usize) -> Vec<String> {
    words(n).iter().map(|w| w.iter().map(|d| char::from(b'0' + d)).collect()).collect()
}

/// The permutations of length n, by the place of the last value.
pub fn words(n: usize) -> Vec<Vec<u8>> {
    if n == 0 {
        return vec![vec![]];
    }
    words(n - 1).iter().flat_map(|w| (1..=n as u8).map(|v| child(w, v).items().to_vec())).collect()
}

/// The first prefixes, by length.
fn prefixes(count: usize) -> Vec<String> {
    let mut all = vec!["ε".to_string()];
    for n in 1..=6 {
        all.extend(all_permutations(n));
    }
    all.into_iter().cycle().take(count).collect()
}

/// No patterns, and as many entries as asked for: ε and deletions of the first position.
pub fn unpatterned(count: usize) -> Pair {
    let all = (0..=6).flat_map(words).take(count);
    let entry = |w: Vec<u8>| if w.is_empty() { Entry::default() } else { deleting(&w, &[1]) };
    Pair { patterns: vec![], entries: all.map(entry).collect() }
}

/// A scheme that needs just 4,096 cells at n = 10.
pub fn exact_need() -> Pair {
    let mut entries = unpatterned(2).entries;
    let mut add = |word: &[u8], r| entries.push(deleting(word, &[r]));
    add(&[1, 2], 1);
    for w in [[1, 2, 3], [1, 3, 2], [2, 3, 1], [2, 1, 3]] {
        let r = (1..=3).find(|&r| deleted(&w, &[r]).items() == [1, 2]).expect("12 stands in it");
        add(&w, r);
    }
    for w in [[1, 2, 3, 4], [1, 2, 4, 3], [1, 3, 4, 2], [2, 3, 4, 1], [4, 1, 2, 3], [1, 4, 2, 3]] {
        let r = (1..=4).find(|&r| deleted(&w, &[r]).items() == [1, 2, 3]).expect("123 stands in it");
        add(&w, r);
    }
    add(&[1, 2, 3, 4, 5], 1);
    Pair { patterns: vec![], entries }
}

/// A scheme that deletes up to three positions together and needs just 4,096 cells at n = 11: four
/// rows of the C(11, 0) to C(11, 5), which are half of 2 to the 11.
pub fn exact_set_need() -> Pair {
    let sets: [&[u16]; 5] = [&[1], &[1, 2], &[2, 3], &[1, 3, 4], &[5]];
    let mut entries = vec![Entry::default()];
    for (k, set) in sets.iter().enumerate() {
        entries.push(deleting(&[1, 2, 3, 4, 5][..=k], set));
    }
    Pair { patterns: vec![], entries }
}

/// A maker of random inputs: it keeps the schemes that it found, to damage them.
pub struct Maker {
    pub random: Random,
    pub pool: Vec<Pair>,
}

impl Maker {
    pub fn new(seed: u64, pool: usize) -> Maker {
        let mut maker = Maker { random: Random::new(seed), pool: vec![] };
        for p in published() {
            let (patterns, scheme) = (p.patterns.as_bytes(), p.scheme.as_bytes());
            if let (Ok(patterns), Ok(scheme)) = (read_patterns(patterns), read_scheme(scheme)) {
                maker.pool.push(Pair { patterns: patterns.items().to_vec(), entries: scheme.entries });
            }
        }
        for _ in 0..pool {
            let pair = maker.found();
            maker.pool.push(pair);
        }
        maker
    }

    fn set(&mut self) -> Vec<Pattern> {
        let r = &mut self.random;
        let (count, longest) = match r.below(8) {
            0 => (r.within(0, 2), 8),
            1 => (r.within(1, 6), 3),
            2 | 3 => (r.within(1, 4), 4),
            4 => (r.within(6, 24), 4),
            5 => (r.within(1, 3), 5),
            6 => (r.within(10, 24), 5),
            _ => (r.within(2, 3), 3),
        };
        let shortest = if r.one_in(12) { 1 } else { longest.min(3) };
        let mut set: Vec<Pattern> = vec![];
        for _ in 0..count {
            let length = r.within(shortest, longest);
            let p = Pattern::of(&r.permutation(length));
            if !set.contains(&p) {
                set.push(p);
            }
        }
        set
    }

    /// A scheme that the finder makes, or, where it finds none, one that is cut off with deletions.
    fn found(&mut self) -> Pair {
        let mut tries = 0;
        loop {
            let patterns = self.set();
            let longest = longest(&patterns);
            let depth = if longest > 5 { 2 } else { self.random.within(2, 4) };
            let total = self.random.within(0, if longest > 5 { 1 } else { 3 });
            let mut more = vec![];
            if self.random.one_in(4) {
                let length = self.random.within(1, depth + 1).min(if longest > 5 { 3 } else { 5 });
                more.push(Prefix::of(&self.random.permutation(length)));
            }
            let depth = depth.max(more.first().map_or(0, |p| p.count()));
            let choice = if self.random.one_in(3) { Choice::Most } else { Choice::One };
            if let Some(entries) = find(&patterns, &more, depth, total, choice) {
                return Pair { patterns, entries };
            }
            tries += 1;
            if tries == 6 {
                return self.cut_off(patterns, depth.min(3), total);
            }
        }
    }

    /// All prefixes up to a depth; the longest ones delete some positions, rightly or not.
    fn cut_off(&mut self, patterns: Vec<Pattern>, depth: usize, total: usize) -> Pair {
        let basis = basis(&patterns);
        let mut entries = vec![];
        for word in (0..=depth).flat_map(words) {
            let mut entry = decide(&basis, Prefix::of(&word), total, Choice::One);
            if word.len() == depth && entry.rule == Rule::Expand {
                entry.rule = Rule::deleting(&random_set(&mut self.random, depth));
            }
            entries.push(entry);
        }
        Pair { patterns, entries }
    }

    /// The next random input.
    pub fn next_case(&mut self) -> Case {
        let kind = self.random.below(20);
        if kind == 0 {
            let pair = self.found();
            return self.texts("found", &pair);
        }
        let at = self.random.below(self.pool.len());
        let mut pair = self.pool[at].clone();
        match kind {
            1 => self.texts("found", &pair),
            2..=9 => {
                let times = if self.random.one_in(3) { 2 } else { 1 };
                let mut kind = "";
                for _ in 0..times {
                    kind = self.damage(&mut pair);
                }
                self.texts(kind, &pair)
            }
            10 => {
                let random = &mut self.random;
                let (patterns, scheme) = spaced(&pair, || if random.one_in(3) { random.below(4) } else { 0 });
                Case { kind: "spaces between pieces", patterns, scheme }
            }
            11 | 12 => self.random_list(),
            13 => self.mixed(pair),
            14 => self.random_bytes(),
            15 if self.random.one_in(2) => self.long_position_set(&pair),
            _ => {
                let mut made = self.texts("found", &pair);
                let set = self.random.one_in(4);
                let text = if set { &mut made.patterns } else { &mut made.scheme };
                made.kind = damage_text(&mut self.random, text);
                made
            }
        }
    }

    /// The texts of a pair, with a long set of positions in one entry.
    fn long_position_set(&mut self, pair: &Pair) -> Case {
        let mut made = self.texts("a long set of positions", pair);
        long_set(&mut self.random, &mut made.scheme);
        made
    }

    /// An entry that deletes some positions, rightly or not, at the front of what it needs; now and
    /// then it has gap vectors, or the set superfluous patterns.
    pub fn next_deletion(&mut self) -> Case {
        let mut patterns = self.set();
        let r = &mut self.random;
        let mut kind = "random deletions";
        if r.one_in(3) && add_superfluous(r, &mut patterns) {
            kind = "random, superfluous patterns";
        }
        let longest = longest(&patterns);
        let length = if r.one_in(4) { r.within(4, PREFIX_LENGTH) } else { r.within(1, 4) };
        let prefix = r.permutation(length);
        let mut entry = deleting(&prefix, &random_set(r, length));
        if r.one_in(3) {
            let total = r.within(0, if longest + length > 9 { 1 } else { 3 });
            entry.vectors = empty_vectors(&basis(&patterns), &prefix, total);
            while entry.vectors.count() > 0 && r.one_in(3) {
                entry.vectors.remove(r.below(entry.vectors.count()));
            }
            if entry.vectors.count() > 0 {
                kind = "random, with gap vectors";
            }
        }
        let mut entries = with_needed(entry);
        if r.one_in(3) {
            let at = r.below(entries.len());
            entries.rotate_left(at);
        }
        self.texts(kind, &Pair { patterns, entries })
    }

    /// A set with patterns that contain a member put into it, and the scheme of the set without
    /// them: as it is, or with an entry that deletes another position, or one vector less. Most are
    /// small enough for listing.
    pub fn next_lengthened(&mut self) -> Case {
        let mut pair = self.small();
        let r = &mut self.random;
        let depth = pair.entries.iter().map(|e| e.prefix.count()).max().unwrap_or(0);
        let longest = if r.one_in(10) { PATTERN_LENGTH } else { (LISTED - depth).min(PATTERN_LENGTH - 2) };
        let mut kind = lengthen(r, &mut pair.patterns, longest);
        if r.one_in(10) && pair.patterns.len() < PATTERNS {
            pair.patterns.retain(|p| p.count() > 1);
            pair.patterns.insert(r.below(pair.patterns.len() + 1), Pattern::of(&[1]));
            kind = "all above 1";
        }
        if r.one_in(40) {
            let twin = *r.pick(&pair.patterns);
            pair.patterns.push(twin);
        }
        if !r.one_in(3) {
            delete_another(r, &mut pair.entries);
        } else if r.one_in(3) {
            let at = r.below(pair.entries.len());
            let vectors = &mut pair.entries[at].vectors;
            if vectors.count() > 0 {
                vectors.remove(0);
            }
        }
        if r.one_in(3) {
            let at = r.below(pair.entries.len());
            pair.entries.rotate_left(at);
        }
        self.texts(kind, &pair)
    }

    /// A scheme with sets of positions that can be deleted together, most of them small enough for
    /// listing; half of the time one of them is another, true or not, or damaged, or a further
    /// entry, which nothing reaches, has a set as well.
    pub fn next_together(&mut self) -> Case {
        let mut pair = if self.random.one_in(6) { self.freely() } else { self.with_sets() };
        let r = &mut self.random;
        let mut kind = "several positions together";
        match r.below(8) {
            0 | 1 => {
                delete_another(r, &mut pair.entries);
                kind = "other positions together";
            }
            2 => {
                let at = r.below(pair.entries.len());
                kind = damage_set(r, &mut pair.entries[at]);
            }
            3 => {
                add_unreached(r, &mut pair);
                kind = "a set that nothing reaches";
            }
            _ => {}
        }
        if r.one_in(3) {
            let at = r.below(pair.entries.len());
            pair.entries.rotate_left(at);
        }
        self.texts(kind, &pair)
    }

    /// A small pair of the pool, with true deletions of several positions where there are any; some
    /// pairs are tried for one that has them.
    fn with_sets(&mut self) -> Pair {
        let mut pair = self.small();
        for _ in 0..20 {
            let several = give_sets(&mut self.random, &mut pair);
            if several {
                break;
            }
            pair = self.small();
        }
        pair
    }

    /// No patterns, so that every deletion is true: all prefixes up to a depth, of which the
    /// longest delete any set.
    fn freely(&mut self) -> Pair {
        let r = &mut self.random;
        let depth = r.within(1, 3);
        let mut entries = vec![];
        for word in (0..=depth).flat_map(words) {
            let set = if word.len() < depth { vec![] } else { random_set(r, depth) };
            let rule = if set.is_empty() { Rule::Expand } else { Rule::deleting(&set) };
            entries.push(Entry { prefix: Prefix::of(&word), rule, ..Entry::default() });
        }
        let mut pair = Pair { patterns: vec![], entries };
        for _ in 0..r.below(4) {
            add_unreached(r, &mut pair);
        }
        pair
    }

    /// A pair of the pool with patterns, whose set can be lengthened and still be listed. The
    /// published scheme of {123} is one.
    fn small(&mut self) -> Pair {
        loop {
            let pair = self.random.pick(&self.pool);
            let depth = pair.entries.iter().map(|e| e.prefix.count()).max().unwrap_or(0);
            let shortest = pair.patterns.iter().map(|p| p.count()).min();
            if shortest.is_some_and(|s| s + depth < LISTED) && longest(&pair.patterns) + depth <= LISTED && pair.entries.len() <= 40 {
                return pair.clone();
            }
        }
    }

    fn texts(&mut self, kind: &'static str, pair: &Pair) -> Case {
        let few = self.random.one_in(6);
        let random = &mut self.random;
        let (patterns, scheme) = spaced(pair, || if few { random.one_in(9) as usize } else { 0 });
        Case { kind, patterns, scheme }
    }

    /// Changes something in a set or a scheme; what it was.
    fn damage(&mut self, pair: &mut Pair) -> &'static str {
        let r = &mut self.random;
        if pair.entries.is_empty() {
            return "found";
        }
        let at = r.below(pair.entries.len());
        let other = r.below(pair.entries.len());
        // an entry with a vector, if there is one
        let with_vector: Vec<usize> = (0..pair.entries.len()).filter(|&i| pair.entries[i].vectors.count() > 0).collect();
        let chosen = if with_vector.is_empty() { at } else { *r.pick(&with_vector) };
        match r.below(15) {
            0..=2 => {
                if let Some(v) = pair.entries[chosen].vectors.items_mut().first_mut() {
                    let c = r.below(v.count());
                    let x = &mut v.items_mut()[c];
                    *x = if r.one_in(2) { *x + 1 } else { x.saturating_sub(1) };
                }
                "a vector changed"
            }
            3 => {
                let vectors = &mut pair.entries[chosen].vectors;
                if vectors.count() > 0 {
                    vectors.remove(r.below(vectors.count()));
                }
                "a vector dropped"
            }
            4 => {
                let e = &mut pair.entries[at];
                let width = if r.one_in(8) { r.within(1, 7) } else { e.prefix.count() + 1 };
                let v: Vec<u16> = (0..width).map(|_| if r.one_in(3) { r.below(3) as u16 } else { 0 }).collect();
                if e.vectors.count() < VECTORS {
                    e.vectors.push(Vector::of(&v));
                }
                "a vector more"
            }
            5 => {
                let e = &mut pair.entries[at];
                let k = e.prefix.count();
                let position = if r.one_in(10) { r.below(9) } else { r.within(1, k.max(1)) };
                e.rule = Rule::deleting(&[position as u16]);
                "a position changed"
            }
            6 | 7 => damage_set(r, &mut pair.entries[at]),
            8 => {
                pair.entries[at].rule = Rule::Expand;
                "a deletion expands"
            }
            9 => {
                pair.entries.remove(at);
                "an entry dropped"
            }
            10 => {
                pair.entries.swap(at, other);
                "two entries exchanged"
            }
            11 => {
                let p = pair.entries[at].prefix;
                pair.entries[at].prefix = pair.entries[other].prefix;
                if r.one_in(3) {
                    pair.entries[other].prefix = p;
                    "two prefixes exchanged"
                } else {
                    "a prefix changed"
                }
            }
            12 => {
                let e = pair.entries[other];
                pair.entries.insert(at, e);
                "an entry twice"
            }
            13 => {
                if !pair.patterns.is_empty() {
                    let p = r.below(pair.patterns.len());
                    if r.one_in(2) {
                        pair.patterns.remove(p);
                    } else {
                        let length = pair.patterns[p].count();
                        pair.patterns[p] = Pattern::of(&r.permutation(length));
                    }
                }
                "a pattern changed"
            }
            _ => {
                let length = r.within(1, 5);
                pair.patterns.push(Pattern::of(&r.permutation(length)));
                "a pattern more"
            }
        }
    }

    /// A list of random parts, most of them right.
    fn random_list(&mut self) -> Case {
        let r = &mut self.random;
        let mut patterns = vec![];
        for _ in 0..r.below(4) {
            let length = r.within(1, 5);
            patterns.push(Pattern::of(&r.permutation(length)));
        }
        if r.one_in(10) {
            patterns.push(Pattern::of(&[r.below(4) as u8, r.below(4) as u8]));
        }
        let depth = r.within(0, 3);
        let mut entries = vec![];
        for word in (0..=depth).flat_map(words) {
            if r.one_in(40) {
                continue;
            }
            let k = word.len();
            let mut entry = Entry { prefix: Prefix::of(&word), ..Entry::default() };
            if r.one_in(30) && k > 0 {
                entry.prefix.items_mut()[r.below(k)] = r.below(10) as u8;
            }
            if (k == depth && k > 0) || r.one_in(5) {
                entry.rule = Rule::deleting(&random_set(r, k.max(1)));
                if r.one_in(25) {
                    damage_set(r, &mut entry);
                }
            }
            for _ in 0..if r.one_in(4) { r.below(4) } else { 0 } {
                let width = if r.one_in(25) { r.within(1, 7) } else { k + 1 };
                let high = if r.one_in(15) { 9 } else { 2 };
                let v: Vec<u16> = (0..width).map(|_| if r.one_in(2) { r.within(0, high) as u16 } else { 0 }).collect();
                entry.vectors.push(Vector::of(&v));
            }
            entries.push(entry);
        }
        self.texts("random lists", &Pair { patterns, entries })
    }

    /// The set of one pair with the scheme of another.
    fn mixed(&mut self, pair: Pair) -> Case {
        let other = self.random.below(self.pool.len());
        let entries = self.pool[other].entries.clone();
        let longest = longest(&pair.patterns);
        let deepest = entries.iter().map(|e| e.prefix.count()).max().unwrap_or(0);
        if longest + deepest > 11 && pair.patterns.len() > 3 {
            return self.random_bytes();
        }
        self.texts("set and scheme exchanged", &Pair { patterns: pair.patterns, entries })
    }

    fn random_bytes(&mut self) -> Case {
        let r = &mut self.random;
        let pieces = [
            "{", "}", "(", ")", ",", "⟨", "⟩", "ε", "∅", "1", "2", "12", "21", "0", " ", "123", "\u{2205}\u{2205}", "\n", "a", "(ε,∅,∅)", "{1}", "⟨0,1⟩",
            "(1,∅,{1})",
        ];
        let text = |r: &mut Random| -> Vec<u8> {
            let length = r.below(40);
            match r.below(3) {
                0 => (0..length).map(|_| r.below(256) as u8).collect(),
                1 => (0..length).map(|_| *r.pick(&[0x20, 0xce, 0xb5, 0xe2, 0x88, 0x85, 0x9f, 0xa8, 0xa9, b'{', b'}', b'(', b')', b',', b'1', b'0'])).collect(),
                _ => (0..length).map(|_| *r.pick(&pieces)).collect::<String>().into_bytes(),
            }
        };
        let patterns = if r.one_in(2) { SET.into() } else { text(r) };
        let scheme = if r.one_in(8) { SCHEME.into() } else { text(r) };
        Case { kind: "random bytes and pieces", patterns, scheme }
    }
}

/// Has the entries of a scheme that delete do so with other sets that are true, several positions
/// where it can be; whether some entry deletes several.
fn give_sets(r: &mut Random, pair: &mut Pair) -> bool {
    let listed: Vec<Prefix> = pair.entries.iter().map(|e| e.prefix).collect();
    let basis = basis(&pair.patterns);
    for entry in &mut pair.entries {
        if entry.rule != Rule::Expand {
            choose_set(r, &basis, entry, &listed);
        }
    }
    pair.entries.iter().any(|e| e.rule.size() > 1)
}

/// Has an entry delete a set that is true and whose target is listed, where there is one; most of
/// the time one of several positions.
fn choose_set(r: &mut Random, basis: &[Pattern], entry: &mut Entry, listed: &[Prefix]) {
    let mut sets = true_sets(basis, entry, listed);
    if sets.iter().any(|set| set.len() > 1) && !r.one_in(4) {
        sets.retain(|set| set.len() > 1);
    }
    if !sets.is_empty() {
        entry.rule = Rule::deleting(&r.pick(&sets)[..]);
    }
}

/// Puts an entry that nothing needs at the end of a scheme: a prefix that is not listed, with empty
/// gap vectors, and a set that is true where there is one.
fn add_unreached(r: &mut Random, pair: &mut Pair) {
    let length = r.within(2, PREFIX_LENGTH);
    let prefix = r.permutation(length);
    let listed: Vec<Prefix> = pair.entries.iter().map(|e| e.prefix).collect();
    if listed.iter().any(|p| p.items() == prefix) || listed.len() >= ENTRIES {
        return;
    }
    let basis = basis(&pair.patterns);
    let mut entry = deleting(&prefix, &random_set(r, length));
    entry.vectors = empty_vectors(&basis, &prefix, 1);
    choose_set(r, &basis, &mut entry, &listed);
    pair.entries.push(entry);
}

/// Has one entry delete other positions than it does, or some where it expands, of those whose
/// target has an entry.
fn delete_another(r: &mut Random, entries: &mut [Entry]) {
    let prefixes: Vec<Prefix> = entries.iter().map(|e| e.prefix).collect();
    let mut changes = vec![];
    for (i, e) in entries.iter().enumerate() {
        for set in position_sets(e.prefix.count()) {
            let target = Prefix::of(deleted(e.prefix.items(), &set).items());
            let rule = Rule::deleting(&set);
            if prefixes.contains(&target) && e.rule != rule {
                changes.push((i, rule));
            }
        }
    }
    if !changes.is_empty() {
        let (i, rule) = *r.pick(&changes);
        entries[i].rule = rule;
    }
}

/// Damages a text; what was done.
pub fn damage_text(r: &mut Random, text: &mut Vec<u8>) -> &'static str {
    if text.is_empty() {
        return "found";
    }
    let at = r.below(text.len());
    let bytes = [b' ', b'0', b'1', b'2', b'9', b',', b'{', b'}', b'(', b')', 0xce, 0xb5, 0xe2, 0x88, 0x85, 0x9f, 0xa8, 0xa9, b'\n', b'\t', 0, 0xff];
    match r.below(9) {
        0 => {
            text.truncate(at);
            "truncated"
        }
        1 => {
            text.drain(..at);
            "truncated"
        }
        2 => {
            let again = text.clone();
            text.extend(again);
            "doubled"
        }
        3 => {
            let end = (at + r.below(30)).min(text.len());
            let part = text[at..end].to_vec();
            text.splice(at..at, part);
            "a part doubled"
        }
        4 => {
            let end = (at + r.below(12)).min(text.len());
            text.drain(at..end);
            "a part dropped"
        }
        5 => {
            text.insert(at, *r.pick(&bytes));
            "a byte more"
        }
        6 => {
            text.remove(at);
            "a byte dropped"
        }
        7 => {
            text[at] = *r.pick(&bytes);
            "a byte changed"
        }
        _ => {
            // a digit changed, which leaves the spelling right
            let digits: Vec<usize> = (0..text.len()).filter(|&i| text[i].is_ascii_digit()).collect();
            if !digits.is_empty() {
                text[*r.pick(&digits)] = b'0' + r.below(10) as u8;
            }
            "a digit changed"
        }
    }
}
