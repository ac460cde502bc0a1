//! A small finder of schemes: from ε on, each prefix that is asked for gets its minimal empty gap
//! vectors and a set of positions that can be deleted together, or expands.

use crate::judging::{basis, covered, each_spacing, is_empty, violated};
use crate::model::*;
use crate::word::{child, deleted, sets_of};
use std::collections::BTreeMap;

/// How many positions an entry deletes together, where it can delete.
#[derive(Clone, Copy, Debug, PartialEq, Eq)]
pub enum Choice {
    /// one, the smallest that works
    One,
    /// as many as work together; of the sets of that size the first
    Most,
}

/// A scheme for the set with the prefixes that are asked for, or None if it needs prefixes beyond
/// the depth. Gap vectors have at most the total.
pub fn find(patterns: &[Pattern], more: &[Prefix], depth: usize, total: usize, choice: Choice) -> Option<Vec<Entry>> {
    let basis = basis(patterns);
    let mut found = BTreeMap::new();
    let mut asked = more.to_vec();
    asked.push(Prefix::new());
    while let Some(prefix) = asked.pop() {
        let key = (prefix.count(), prefix.items().to_vec());
        if found.contains_key(&key) {
            continue;
        }
        if prefix.count() > depth || found.len() >= ENTRIES {
            return None;
        }
        let entry = decide(&basis, prefix, total, choice);
        found.insert(key, entry);
        match &entry.rule {
            Rule::Expand => {
                if prefix.count() == depth {
                    return None;
                }
                asked.extend((1..=prefix.count() + 1).map(|v| Prefix::of(child(prefix.items(), v as u8).items())));
            }
            Rule::Delete(set) => asked.push(Prefix::of(deleted(prefix.items(), set.items()).items())),
        }
    }
    Some(found.into_values().collect())
}

/// The entry for a prefix.
pub fn decide(basis: &[Pattern], prefix: Prefix, total: usize, choice: Choice) -> Entry {
    let vectors = empty_vectors(basis, prefix.items(), total);
    let positions = match choice {
        Choice::One => smallest(basis, prefix.items(), vectors.items()).map(|r| vec![r]),
        Choice::Most => most(basis, prefix.items(), vectors.items()),
    };
    let rule = positions.map_or(Rule::Expand, |set| Rule::deleting(&set));
    Entry { prefix, vectors, rule }
}

/// The smallest position that can be deleted.
fn smallest(basis: &[Pattern], prefix: &[u8], vectors: &[Vector]) -> Option<u16> {
    (1..=prefix.len() as u16).find(|&r| !violated(basis, prefix, vectors, &[r]))
}

/// The first of the largest sets that can be deleted together. Of such a set each position can be
/// deleted alone: what avoids without the one avoids without all of them. The converse is false.
fn most(basis: &[Pattern], prefix: &[u8], vectors: &[Vector]) -> Option<Vec<u16>> {
    let works = |set: &[u16]| !violated(basis, prefix, vectors, set);
    let alone: Vec<u16> = (1..=prefix.len() as u16).filter(|&r| works(&[r])).collect();
    let sets = (1..=alone.len()).rev().flat_map(|size| sets_of(&alone, size));
    { sets }.find(|set| works(set))
}

/// Up to eight minimal empty gap vectors, by rising total.
pub fn empty_vectors(basis: &[Pattern], prefix: &[u8], total: usize) -> Kept<Vector, VECTORS> {
    let mut vectors = Kept::<Vector, VECTORS>::new();
    for t in 0..=total {
        let mut more = vec![];
        each_spacing(prefix.len() + 1, t, &mut |g| {
            let b: Vec<u16> = g.iter().map(|&x| x as u16).collect();
            if !covered(vectors.items(), g) && is_empty(basis, prefix, &b) {
                more.push(Vector::of(&b));
            }
            false
        });
        for v in more {
            if vectors.count() < VECTORS {
                vectors.push(v);
            }
        }
    }
    vectors
}
