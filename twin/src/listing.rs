//! The slow mode: the verdict, the counts, also those by inversions, the witness, the first avoider
//! and the next by listing, word for word as the documents define them, for small lengths only.

use crate::model::*;
use crate::word::{contains, reduce};
use std::collections::HashMap;

/// Sizes of cells up to this length are listed.
pub const LISTED: usize = 8;

/// Every copy of the pattern in the word, as a list of positions that count from 1: every choice of
/// positions is tried.
fn copies<'a>(pattern: &'a [u8], word: &'a [u8]) -> impl Iterator<Item = Vec<u8>> + 'a {
    let sets = (0u32..1 << word.len()).filter(|set| set.count_ones() as usize == pattern.len());
    let chosen = |set: u32, i: u8| set >> (i - 1) & 1 == 1;
    let all = 1..=word.len() as u8;
    let choices = sets.map(move |set| all.clone().filter(|&i| chosen(set, i)).collect());
    choices.filter(move |positions: &Vec<u8>| {
        let chosen: Vec<u8> = positions.iter().map(|&i| word[i as usize - 1]).collect();
        reduce(&chosen) == pattern
    })
}

/// Containment by trying every choice of positions.
fn contains_slowly(pattern: &[u8], word: &[u8]) -> bool {
    copies(pattern, word).next().is_some()
}

/// The lexicographically first copy, as the least of all copies.
pub fn first_copy_slowly(pattern: &[u8], word: &[u8]) -> Option<Vec<u8>> {
    copies(pattern, word).min()
}

/// The permutations of length n in lexicographic order, by their first entry.
fn permutations(n: usize) -> Vec<Vec<u8>> {
    if n == 0 {
        return vec![vec![]];
    }
    let shorter = permutations(n - 1);
    let beginning = |first: u8| {
        let behind = move |x: &u8| if *x >= first { x + 1 } else { *x };
        shorter.iter().map(move |rest| [first].into_iter().chain(rest.iter().map(behind)).collect())
    };
    (1..=n as u8).flat_map(beginning).collect()
}

/// The sizes of the cells of one prefix length and one length, by prefix and spacing.
type Sizes = HashMap<(Vec<u8>, Vec<usize>), usize>;

/// Every list of some of the word's entries in their order, but not all of them, reduced.
fn proper_sublists(word: &[u8]) -> impl Iterator<Item = Vec<u8>> + '_ {
    let all = (1u32 << word.len()) - 1;
    (0..all).map(|set| {
        let chosen = word.iter().enumerate().filter(|(i, _)| set >> i & 1 == 1);
        reduce(&chosen.map(|(_, &x)| x).collect::<Vec<u8>>())
    })
}

/// The avoiders of each length, listed once, and the sizes of their cells.
pub struct Listing {
    patterns: Vec<Vec<u8>>,
    /// m as order 3 defines it: the length of the longest pattern that contains no other one
    m: usize,
    /// m as document 01 had it before order 3: the length of the longest pattern
    old_m: usize,
    avoiders: Vec<Vec<Vec<u8>>>,
    cells: HashMap<(usize, usize), Sizes>,
}

impl Listing {
    pub fn of(patterns: &Patterns) -> Listing {
        let patterns: Vec<Vec<u8>> = patterns.items().iter().map(|p| p.items().to_vec()).collect();
        let minimal = |p: &&Vec<u8>| !proper_sublists(p).any(|q| patterns.contains(&q));
        let m = patterns.iter().filter(minimal).map(|p| p.len()).max().unwrap_or(0);
        let old_m = patterns.iter().map(|p| p.len()).max().unwrap_or(0);
        Listing { patterns, m, old_m, avoiders: vec![], cells: HashMap::new() }
    }

    /// m as order 3 defines it, and as document 01 had it before.
    pub fn both_m(&self) -> (usize, usize) {
        (self.m, self.old_m)
    }

    /// The permutations of length n that avoid every pattern.
    pub fn avoiders(&mut self, n: usize) -> &[Vec<u8>] {
        while self.avoiders.len() <= n {
            let mut words = permutations(self.avoiders.len());
            words.retain(|w| !self.patterns.iter().any(|p| contains_slowly(p, w)));
            self.avoiders.push(words);
        }
        &self.avoiders[n]
    }

    /// The number of avoiders of length n with 0, 1, .. inversions.
    pub fn by_inversions(&mut self, n: usize) -> Vec<u64> {
        // a falling word has the most inversions
        let falling: Vec<u8> = (1..=n as u8).rev().collect();
        let mut figures = vec![0; inversions(&falling) + 1];
        for word in self.avoiders(n) {
            figures[inversions(word)] += 1;
        }
        figures
    }

    /// The first avoider of length n, as the least of all.
    pub fn first(&mut self, n: usize) -> Option<Vec<u8>> {
        self.avoiders(n).iter().min().cloned()
    }

    /// The next avoider of the same length, as the least of those that come after the word.
    pub fn next(&mut self, word: &[u8]) -> Option<Vec<u8>> {
        self.avoiders(word.len()).iter().filter(|other| other[..] > *word).min().cloned()
    }

    /// The size of the cell (p; g).
    fn size(&mut self, p: &[u8], g: &[usize]) -> usize {
        let (k, n) = (p.len(), p.len() + g.iter().sum::<usize>());
        if !self.cells.contains_key(&(k, n)) {
            let mut sizes = HashMap::new();
            for word in self.avoiders(n) {
                let first = &word[..k];
                *sizes.entry((reduce(first), spacing(first, n))).or_insert(0) += 1;
            }
            self.cells.insert((k, n), sizes);
        }
        self.cells[&(k, n)].get(&(p.to_vec(), g.to_vec())).copied().unwrap_or(0)
    }

    /// The verdict on a well-formed scheme by comparing sizes, or None if some length is too large
    /// to list. Sizes are compared at all totals below the old m, so that a fault which only it
    /// reaches would be found; the compared cells are those with a total below the m of order 3.
    pub fn judge(&mut self, scheme: &Scheme) -> Option<Result<usize, Refusal>> {
        let too_long = |e: &Entry| {
            let total = e.vectors.items().iter().map(|v| v.items().iter().sum::<u16>() as usize).max().unwrap_or(0);
            let compared = if e.rule == Rule::Expand { 0 } else { self.old_m.max(1) - 1 };
            e.prefix.count() + total.max(compared) > LISTED
        };
        if scheme.entries.iter().any(too_long) {
            return None;
        }
        for (i, entry) in scheme.entries.iter().enumerate() {
            for vector in entry.vectors.items() {
                let g: Vec<usize> = vector.items().iter().map(|&x| x as usize).collect();
                if self.size(entry.prefix.items(), &g) != 0 {
                    return Some(Err(Refusal(LIVE_GAP, i)));
                }
            }
        }
        let mut compared = 0;
        for (i, entry) in scheme.entries.iter().enumerate() {
            let Rule::Delete(set) = &entry.rule else { continue };
            let (p, set) = (entry.prefix.items(), set.items());
            let shorter = reduce(&without(p, set));
            for total in 0..self.old_m {
                for g in spacings(p.len() + 1, total) {
                    if is_covered(entry, &g) {
                        continue;
                    }
                    compared += (total < self.m) as usize;
                    if self.size(p, &g) != self.size(&shorter, &merged(p, set, &g)) {
                        return Some(Err(Refusal(IRREVERSIBLE, i)));
                    }
                }
            }
        }
        Some(Ok(compared))
    }

    /// The bytes of the witness for an entry: the first spacing that is at least no vector, with a
    /// total below the old m, at which the sizes of the two cells differ; the first permutation
    /// that is lost there, and the first copy in it of the earliest pattern that has one. None if
    /// sizes differ at no length up to `limit`.
    pub fn witness(&mut self, entry: &Entry, limit: usize) -> Option<Vec<u8>> {
        let Rule::Delete(set) = &entry.rule else { return None };
        let (p, set) = (entry.prefix.items(), set.items());
        let shorter = reduce(&without(p, set));
        for total in (0..self.old_m).take_while(|total| p.len() + total <= limit) {
            for g in spacings(p.len() + 1, total) {
                if is_covered(entry, &g) {
                    continue;
                }
                if self.size(p, &g) != self.size(&shorter, &merged(p, set, &g)) {
                    let words = permutations(p.len() + total);
                    let word = words.iter().find(|word| self.is_lost(p, set, &g, word));
                    return Some(self.page(word.expect("where sizes differ a permutation is lost")));
                }
            }
        }
        None
    }

    /// Whether a permutation has the prefix p and the spacing g and contains a pattern, while the
    /// reduced rest without the positions of the set belongs to the cell of the shorter prefix and
    /// merged spacing.
    fn is_lost(&self, p: &[u8], set: &[u16], g: &[usize], word: &[u8]) -> bool {
        let (k, n) = (p.len(), word.len());
        if reduce(&word[..k]) != p || spacing(&word[..k], n) != g {
            return false;
        }
        let rest = reduce(&without(word, set));
        let first = &rest[..k - set.len()];
        let contains = |word: &[u8]| self.patterns.iter().any(|p| contains_slowly(p, word));
        let shorter = reduce(&without(p, set));
        let belongs = reduce(first) == shorter && spacing(first, rest.len()) == merged(p, set, g);
        belongs && !contains(&rest) && contains(word)
    }

    /// The bytes of the witness that shows a permutation.
    fn page(&self, word: &[u8]) -> Vec<u8> {
        let mut copies = self.patterns.iter().filter_map(|p| first_copy_slowly(p, word));
        let copy = copies.next().expect("what is shown contains a pattern");
        let mut page = vec![word.len() as u8];
        page.extend(word);
        page.resize(16, 0);
        page.push(copy.len() as u8);
        page.extend(copy);
        page.resize(32, 0);
        page
    }

    /// Whether 32 bytes are a witness for an entry, at any length: what they show is lost at a
    /// compared spacing, by the m of order 3, and the copy is the right one. That nothing smaller
    /// is lost is not looked at.
    pub fn admits(&self, entry: &Entry, bytes: &[u8]) -> bool {
        let Rule::Delete(set) = &entry.rule else { return false };
        let (p, n) = (entry.prefix.items(), bytes[0] as usize);
        if n < p.len() || n >= p.len() + self.m {
            return false;
        }
        let word = &bytes[1..=n];
        let mut sorted = word.to_vec();
        sorted.sort();
        if sorted != (1..=n as u8).collect::<Vec<u8>>() {
            return false;
        }
        let g = spacing(&word[..p.len()], n);
        !is_covered(entry, &g) && self.is_lost(p, set.items(), &g, word) && self.page(word) == bytes
    }

    /// The bytes of the witness for an entry at greater lengths: at each spacing in order that is
    /// at least no vector and has a total below the old m, all words that begin with the prefix
    /// there are listed in lexicographic order, up to a number of words; the first that is lost is
    /// shown. None if it is not among them.
    pub fn witness_among(&self, entry: &Entry, number: usize) -> Option<Vec<u8>> {
        let Rule::Delete(set) = &entry.rule else { return None };
        let p = entry.prefix.items();
        let avoids = |word: &[u8]| self.patterns.iter().all(|p| contains(p, word).is_none());
        let mut listed = 0;
        for total in 0..self.old_m {
            let orders = permutations(total);
            for g in spacings(p.len() + 1, total) {
                if is_covered(entry, &g) {
                    continue;
                }
                listed += orders.len();
                if listed > number {
                    return None;
                }
                // the value of the prefix's entry x has below it x - 1 others of the prefix, and
                // the free values of the components before it
                let value = |x: &u8| x + g[..*x as usize].iter().sum::<usize>() as u8;
                let first: Vec<u8> = p.iter().map(value).collect();
                let values = 1..=(p.len() + total) as u8;
                let free: Vec<u8> = values.filter(|v| !first.contains(v)).collect();
                for order in &orders {
                    let mut word = first.clone();
                    word.extend(order.iter().map(|&i| free[i as usize - 1]));
                    if !avoids(&word) && avoids(&without(&word, set.items())) {
                        return Some(self.page(&word));
                    }
                }
            }
        }
        None
    }
}

/// The number of pairs where a larger entry precedes a smaller one.
fn inversions(word: &[u8]) -> usize {
    let smaller = |(i, x): (usize, &u8)| word[i..].iter().filter(|y| *y < x).count();
    word.iter().enumerate().map(smaller).sum()
}

/// Whether a spacing is at least one of the entry's vectors in each component.
fn is_covered(entry: &Entry, g: &[usize]) -> bool {
    entry.vectors.items().iter().any(|v| v.items().iter().zip(g).all(|(&b, &x)| b as usize <= x))
}

/// What is left of a word without the positions of a set, all together.
fn without(word: &[u8], set: &[u16]) -> Vec<u8> {
    let stays = |(i, &x): (usize, &u8)| (!set.contains(&(i as u16 + 1))).then_some(x);
    word.iter().enumerate().filter_map(stays).collect()
}

/// The spacing once the prefix's values at the positions of a set are gone: each run of components
/// with no other value between them is one.
fn merged(p: &[u8], set: &[u16], g: &[usize]) -> Vec<usize> {
    let stays = without(p, set);
    let mut merged = vec![];
    let mut run = 0;
    for (i, component) in g.iter().enumerate() {
        run += component;
        // the value behind the component, and the end behind the last one
        if i == p.len() || stays.contains(&(i as u8 + 1)) {
            merged.push(run);
            run = 0;
        }
    }
    merged
}

/// The spacing vector of the first entries of a permutation of length n.
fn spacing(first: &[u8], n: usize) -> Vec<usize> {
    let mut sorted = first.to_vec();
    sorted.sort();
    let mut g = vec![];
    let mut before = 0;
    for c in sorted {
        g.push(c as usize - before - 1);
        before = c as usize;
    }
    g.push(n - before);
    g
}

fn spacings(width: usize, total: usize) -> Vec<Vec<usize>> {
    if width == 1 {
        return vec![vec![total]];
    }
    let mut all = vec![];
    for first in 0..=total {
        for mut rest in spacings(width - 1, total - first) {
            rest.insert(0, first);
            all.push(rest);
        }
    }
    all
}
