//! Words of distinct numbers: permutations, containment, deletion, children.

use crate::model::{Kept, Positions};
use std::cmp::Ordering::{Equal, Greater, Less};

/// A prefix, or a child of one.
pub type Short = Kept<u8, 8>;

/// Whether the word lists 1 to k, each once.
pub fn is_permutation(word: &[u8]) -> bool {
    let mut seen = 0u32;
    for &x in word {
        if x == 0 || x as usize > word.len() {
            return false;
        }
        seen |= 1 << x;
    }
    seen.count_ones() as usize == word.len()
}

/// Whether some entries of the word, in their order, compare pairwise as the pattern's entries do.
pub fn has_copy(pattern: &[u8], word: &[u8]) -> bool {
    pattern.is_empty() || first_entries(pattern, word).is_some()
}

/// The positions of the lexicographically first copy of the pattern in the word, whose entries are
/// distinct.
pub fn contains(pattern: &[u8], word: &[u8]) -> Option<Positions> {
    let entries = first_entries(pattern, word)?;
    let place = |x: &u8| word.iter().position(|y| y == x).map_or(0, |at| at as u8 + 1);
    let places: Vec<u8> = entries[..pattern.len()].iter().map(place).collect();
    Some(Positions::of(&places))
}

/// The entries of the lexicographically first copy: positions are tried in ascending order for each
/// entry of the pattern, so the first copy met is that one.
fn first_entries(pattern: &[u8], word: &[u8]) -> Option<[u8; 32]> {
    let mut chosen = [0u8; 32];
    (pattern.len() <= word.len() && extend(pattern, word, &mut chosen, 0, 0)).then_some(chosen)
}

/// Whether the entries chosen for the pattern's first `depth` entries go on to a copy, with
/// positions from `from` on.
fn extend(pattern: &[u8], word: &[u8], chosen: &mut [u8; 32], depth: usize, from: usize) -> bool {
    if depth == pattern.len() {
        return true;
    }
    let last = word.len() + depth - pattern.len();
    for at in from..=last {
        if fits(pattern, chosen, depth, word[at]) {
            chosen[depth] = word[at];
            if extend(pattern, word, chosen, depth + 1, at + 1) {
                return true;
            }
        }
    }
    false
}

/// Whether x compares with the chosen entries as the pattern's entry at `depth` does with those
/// before it.
#[inline]
fn fits(pattern: &[u8], chosen: &[u8; 32], depth: usize, x: u8) -> bool {
    let p = pattern[depth];
    (0..depth).all(|i| (pattern[i] < p) == (chosen[i] < x))
}

/// Whether the word has a copy of the pattern that ends at the word's last entry.
pub fn ends_copy(pattern: &[u8], word: &[u8]) -> bool {
    let (k, n) = (pattern.len(), word.len());
    if k == 0 || k > n {
        return k == 0;
    }
    ending(pattern, word, &mut [0u8; 32], 0, 0)
}

fn ending(pattern: &[u8], word: &[u8], chosen: &mut [u8; 32], depth: usize, from: usize) -> bool {
    let (k, n) = (pattern.len(), word.len());
    let end = word[n - 1];
    if depth + 1 == k {
        return fits(pattern, chosen, depth, end);
    }
    let above = pattern[depth] > pattern[k - 1];
    for at in from..=n + depth - k {
        let x = word[at];
        if (x > end) == above && fits(pattern, chosen, depth, x) {
            chosen[depth] = x;
            if ending(pattern, word, chosen, depth + 1, at + 1) {
                return true;
            }
        }
    }
    false
}

/// Whether the word has a copy of the pattern through the entry at `place`, counted from 0: each
/// entry of the pattern is tried there.
pub fn copy_through(pattern: &[u8], word: &[u8], place: usize) -> bool {
    let (k, n) = (pattern.len(), word.len());
    let mut fitting = (0..k).filter(|at| *at <= place && k - at <= n - place);
    fitting.any(|at| passing(pattern, word, (at, place), &mut [0u8; 32], 0, 0))
}

/// Whether the chosen entries go on to a copy whose entry `at` is that at `place` of the word.
fn passing(pattern: &[u8], word: &[u8], through: (usize, usize), chosen: &mut [u8; 32], depth: usize, from: usize) -> bool {
    let (at, place) = through;
    let (k, n) = (pattern.len(), word.len());
    if depth == k {
        return true;
    }
    let (from, last) = match depth.cmp(&at) {
        Less => (from, place + depth - at),
        Equal => (place, place),
        Greater => (from, n + depth - k),
    };
    for i in from..=last {
        let x = word[i];
        if (pattern[depth] < pattern[at]) == (x < word[place]) && fits(pattern, chosen, depth, x) {
            chosen[depth] = x;
            if passing(pattern, word, through, chosen, depth + 1, i + 1) {
                return true;
            }
        }
    }
    false
}

/// Replaces the smallest entry by 1, the next by 2, and so on.
pub fn reduce(word: &[u8]) -> Vec<u8> {
    word.iter().map(|x| word.iter().filter(|y| *y <= x).count() as u8).collect()
}

/// The reduced rest without some positions, which count from 1.
pub fn deleted(prefix: &[u8], positions: &[u16]) -> Short {
    let gone = gone_values(prefix, positions);
    let mut rest = Short::new();
    for &x in prefix.iter().filter(|x| gone >> **x & 1 == 0) {
        rest.push(x - (gone & ((1 << x) - 1)).count_ones() as u8);
    }
    rest
}

/// The values at some positions of a prefix: bit x stands for the value x.
pub fn gone_values(prefix: &[u8], positions: &[u16]) -> u32 {
    positions.iter().fold(0, |gone, &r| gone | 1 << prefix[r as usize - 1])
}

/// The sets of so many of the positions, in lexicographic order.
pub fn sets_of(positions: &[u16], size: usize) -> Vec<Vec<u16>> {
    if size == 0 {
        return vec![vec![]];
    }
    let mut sets = vec![];
    for (i, &first) in positions.iter().enumerate() {
        let rest = sets_of(&positions[i + 1..], size - 1);
        sets.extend(rest.iter().map(|rest| [&[first], &rest[..]].concat()));
    }
    sets
}

/// The sets of positions of a prefix of length k, the smaller first, each size in lexicographic
/// order; not the empty one.
pub fn position_sets(k: usize) -> Vec<Vec<u16>> {
    let all: Vec<u16> = (1..=k as u16).collect();
    (1..=k).flat_map(|size| sets_of(&all, size)).collect()
}

/// The child of the prefix that ends with the value.
pub fn child(prefix: &[u8], value: u8) -> Short {
    let mut longer = Short::new();
    for &x in prefix {
        longer.push(if x >= value { x + 1 } else { x });
    }
    longer.push(value);
    longer
}

/// A number for each word of at most eight entries below 10, another one for each.
pub fn code(word: &[u8]) -> u64 {
    word.iter().fold(1, |code, &x| 10 * code + x as u64)
}
