//! The inputs of listing: a set's text with a length, or with a permutation to start from.

use crate::avoiders::{last_avoider, Effort, Search};
use crate::inputs::{add_superfluous, damage_text, words};
use crate::judging::avoids;
use crate::model::*;
use crate::notation::write_patterns;
use crate::random::Random;

/// The first avoider of a length is asked for, or the next after a permutation.
#[derive(Clone, Debug)]
pub enum Start {
    Length(usize),
    After(Vec<u8>),
}

impl Start {
    /// The length of the avoider.
    pub fn length(&self) -> usize {
        match self {
            Start::Length(n) => *n,
            Start::After(word) => word.len(),
        }
    }
}

pub struct Listed {
    pub kind: &'static str,
    pub patterns: Vec<u8>,
    pub start: Start,
}

/// Sets that are listed at length 20: each is slow for one search or another, or has no avoider.
pub const NAMED: [&str; 9] =
    ["{123}", "{321}", "{132,123456}", "{1423,1432}", "{1234,4321}", "{12345678,87654321}", "{312,321}", "{213,231,312,321}", "{132,123456,7654321}"];

/// Sets of the least sizes, with superfluous patterns, and with finitely many avoiders.
pub const SMALL: [&str; 12] =
    ["∅", "{1}", "{12}", "{21}", "{12,21}", "{123,12345}", "{2143,12,123}", "{12345678}", "{123,4321}", "{1234,321}", "{1234,4321}", "{1,87654321}"];

/// The nonempty sets of patterns of length 3.
pub fn length_three() -> Vec<Vec<Pattern>> {
    let all: Vec<Pattern> = words(3).iter().map(|w| Pattern::of(w)).collect();
    let chosen = |set: u32| (0..all.len()).filter(|i| set >> i & 1 == 1).map(|i| all[i]).collect();
    (1..1 << all.len()).map(chosen).collect()
}

/// The inputs that every run has: both sides of the ceilings and of each refusal.
pub fn fixed() -> Vec<Listed> {
    let many = |count: usize| format!("{{{}}}", texts(5)[..count].join(","));
    let (most, more) = (many(PATTERNS), many(PATTERNS + 1));
    let mut sets: Vec<&str> = SMALL.to_vec();
    sets.extend(["", "{}", "{123", "{0}", "{11}", "{12,12}", "{123456789}", "{ 1 2 3 }", " { 123 , 4321 } ", "{ε}", &most, &more]);
    let mut starts: Vec<Start> = vec![];
    for n in [0, 1, 2, 7, 19, 20, 21, 22, 32, 64, 255, 256, 256 + 20, 1 << 32, (1 << 32) + 20, usize::MAX - 1, usize::MAX] {
        starts.push(Start::Length(n));
    }
    for n in [0, 1, 2, 3, 19, 20, 21, 22, 31, 32, 64, 255] {
        let rising: Vec<u8> = (1..=n).collect();
        let falling: Vec<u8> = rising.iter().rev().copied().collect();
        for word in [rising, falling] {
            starts.extend(with_one_wrong(&word).into_iter().map(Start::After));
            starts.push(Start::After(word));
        }
    }
    starts.push(Start::After(vec![0; 256]));
    starts.push(Start::After(vec![1; 256 + 20]));
    let each = |set: &&str| starts.iter().map(|start| listed("refusals and ceilings", set, start.clone())).collect::<Vec<_>>();
    sets.iter().flat_map(each).collect()
}

/// The permutations of a length, as texts.
fn texts(n: usize) -> Vec<String> {
    words(n).iter().map(|w| w.iter().map(|d| char::from(b'0' + d)).collect()).collect()
}

fn listed(kind: &'static str, patterns: impl AsRef<[u8]>, start: Start) -> Listed {
    Listed { kind, patterns: patterns.as_ref().to_vec(), start }
}

/// The word with its first or last entry changed, so that it is no permutation.
fn with_one_wrong(word: &[u8]) -> Vec<Vec<u8>> {
    let n = word.len();
    if n == 0 {
        return vec![];
    }
    let change = |at: usize, value: u8| {
        let mut other = word.to_vec();
        other[at] = value;
        other
    };
    let repeat = word[n / 2];
    let ends = [0, n - 1];
    let values = [0, n as u8 + 1, 32, 64, 255, repeat];
    let pairs = ends.iter().flat_map(|&at| values.map(|value| (at, value)));
    pairs.filter(|&(at, value)| word[at] != value).map(|(at, value)| change(at, value)).collect()
}

/// A maker of random inputs.
pub struct Lister {
    random: Random,
    /// the words that the searches may look at for one starting point
    words: u64,
}

impl Lister {
    pub fn new(seed: u64, words: u64) -> Lister {
        Lister { random: Random::new(seed), words }
    }

    /// The next random input; None where no starting point was found with the effort that is
    /// allowed.
    pub fn next_input(&mut self) -> Option<Listed> {
        let (mut kind, patterns) = self.set();
        let start = match self.random.below(8) {
            0 | 1 => Start::Length(self.length()),
            2 => Start::After(self.word()),
            _ => {
                let n = self.length();
                match self.avoider(&patterns, n)? {
                    Some(word) => Start::After(self.damaged(word)),
                    None => Start::Length(n),
                }
            }
        };
        let mut text = write_patterns(&patterns);
        if self.random.one_in(12) {
            damage_text(&mut self.random, &mut text);
            kind = "a text damaged";
        }
        Some(listed(kind, text, start))
    }

    fn length(&mut self) -> usize {
        let r = &mut self.random;
        match r.below(8) {
            0..=2 => r.within(0, 7),
            3..=6 => r.within(8, LONGEST),
            _ => LONGEST,
        }
    }

    /// A set, and what is particular about it.
    fn set(&mut self) -> (&'static str, Vec<Pattern>) {
        let r = &mut self.random;
        let (shortest, longest) = *r.pick(&[(1, 8), (3, 3), (3, 4), (3, 5), (4, 4), (4, 6), (5, 8)]);
        let count = r.within(0, 6);
        let mut set: Vec<Pattern> = vec![];
        while set.len() < count {
            let length = r.within(shortest, longest);
            let mut pattern = Pattern::of(&r.permutation(length));
            if r.one_in(4) {
                pattern.items_mut().sort();
            } else if r.one_in(4) {
                pattern.items_mut().sort_by(|x, y| y.cmp(x));
            }
            // a set that is full of its kind takes no more
            if !set.contains(&pattern) || r.one_in(200) {
                set.push(pattern);
            } else if r.one_in(20) {
                break;
            }
        }
        if r.one_in(4) && add_superfluous(r, &mut set) {
            return ("a superfluous pattern", set);
        }
        if r.one_in(30) && !set.is_empty() {
            let pattern = *r.pick(&set);
            set.push(pattern);
            return ("a repeated pattern", set);
        }
        if r.one_in(30) {
            let all = words(5);
            let from = r.below(all.len() - PATTERNS);
            let more = r.within(1, 2);
            set = all[from..].iter().take(PATTERNS - 1 + more).map(|w| Pattern::of(w)).collect();
            return ("24 or 25 patterns", set);
        }
        ("random sets", set)
    }

    /// A list of numbers, a permutation or not, that may contain a pattern.
    fn word(&mut self) -> Vec<u8> {
        let r = &mut self.random;
        let length = if r.one_in(4) { r.within(21, 40) } else { r.within(0, LONGEST) };
        let word = r.permutation(length);
        self.damaged(word)
    }

    /// The word, now and then with an entry changed.
    fn damaged(&mut self, mut word: Vec<u8>) -> Vec<u8> {
        let r = &mut self.random;
        if r.one_in(8) && !word.is_empty() {
            let at = r.below(word.len());
            word[at] = match r.below(3) {
                0 => *r.pick(&[0, 21, 32, 64, 255]),
                1 => word.len() as u8 + 1,
                _ => *r.pick(&word),
            };
        }
        word
    }

    /// A random avoider of length n: a random beginning is completed; now and then the first, the
    /// last or one that is near to it. None within where there is none.
    fn avoider(&mut self, patterns: &[Pattern], n: usize) -> Option<Option<Vec<u8>>> {
        let mut effort = Effort::of(self.words);
        if self.random.one_in(6) {
            let last = last_avoider(patterns, n, &mut effort).ok()?;
            return Some(last.map(|word| word[..n].to_vec()));
        }
        let mut word = [0; LONGEST];
        word[..n].copy_from_slice(&self.random.permutation(n));
        let mut length = 0;
        let wanted = self.random.within(0, n);
        while length < wanted {
            let follows = |at: &usize| {
                let mut longer = word;
                longer.swap(length, *at);
                avoids(patterns, &longer[..=length])
            };
            let Some(at) = (length..n).find(follows) else { break };
            word.swap(length, at);
            length += 1;
        }
        let mut search = Search::new(patterns, n, &mut effort);
        loop {
            if let Some(found) = search.completion(word, length).ok()? {
                return Some(Some(found[..n].to_vec()));
            }
            if length == 0 {
                return Some(None);
            }
            length -= 1;
        }
    }
}
