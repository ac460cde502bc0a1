//! Legal inputs that take long.

use crate::inputs::{words, Pair};
use crate::judging::{basis, is_empty, violated};
use crate::model::*;
use crate::random::Random;
use crate::word::{deleted, sets_of};
use std::collections::BTreeMap;

/// The patterns that begin with the word and go on with the other values up to eight, in every
/// order.
pub fn beginning_with(head: &[u8]) -> Vec<Pattern> {
    let rest: Vec<u8> = (1..=8).filter(|x| !head.contains(x)).collect();
    words(rest.len()).iter().map(|w| Pattern::of(&[head, &w.iter().map(|&i| rest[i as usize - 1]).collect::<Vec<u8>>()].concat())).collect()
}

/// The patterns that end with the word and begin with the other values up to eight, in every order.
pub fn ending_with(tail: &[u8]) -> Vec<Pattern> {
    let rest: Vec<u8> = (1..=8).filter(|x| !tail.contains(x)).collect();
    words(rest.len()).iter().map(|w| Pattern::of(&[&w.iter().map(|&i| rest[i as usize - 1]).collect::<Vec<u8>>(), tail].concat())).collect()
}

/// 24 random patterns of length 8 that begin with 1.
pub fn beginning_low(seed: u64) -> Vec<Pattern> {
    let mut random = Random::new(seed);
    let mut set: Vec<Pattern> = vec![];
    while set.len() < PATTERNS {
        let rest = random.permutation(7);
        let p = Pattern::of(&[vec![1], rest.iter().map(|x| x + 1).collect()].concat());
        if !set.contains(&p) {
            set.push(p);
        }
    }
    set
}

/// Prefixes, each with the positions that its entry deletes together.
type Deletions = BTreeMap<Vec<u8>, Vec<u16>>;

/// A set with true deletions of prefixes of length 6, up to a number, and then the entries that
/// they need, some of them false, so that the search goes through all the true ones before it
/// refuses.
pub fn true_deletions(patterns: Vec<Pattern>, number: usize) -> Pair {
    true_deletions_of(1, patterns, number)
}

/// The same with so many positions deleted together by each of the true ones.
pub fn true_deletions_of(size: usize, patterns: Vec<Pattern>, number: usize) -> Pair {
    let basis = basis(&patterns);
    let sets = sets_of(&[1, 2, 3, 4, 5, 6], size);
    let mut chosen = Deletions::new();
    let mut needed = Deletions::new();
    for target in words(6 - size).into_iter().rev() {
        let mut more = chosen.clone();
        for p in words(6) {
            if more.len() >= number || more.contains_key(&p) {
                continue;
            }
            let leads = |set: &&Vec<u16>| deleted(&p, set).items() == target;
            let found = sets.iter().filter(leads).find(|set| !violated(&basis, &p, &[], set));
            if let Some(set) = found {
                more.insert(p, set.clone());
            }
        }
        let below = with_targets(&needed, &target);
        if more.len() < (chosen.len() + 3).min(number) || more.len() + below.len() + 1 > ENTRIES {
            continue;
        }
        chosen = more;
        needed = below;
        if chosen.len() >= number {
            break;
        }
    }
    let all = chosen.iter().chain(needed.iter().rev());
    let mut entries: Vec<Entry> = all.map(|(p, set)| deleting(p, set)).collect();
    entries.push(Entry::default());
    Pair { patterns, entries }
}

/// The deletions with those that a further prefix needs, down to ε, one position each.
fn with_targets(needed: &Deletions, prefix: &[u8]) -> Deletions {
    let mut all = needed.clone();
    let mut p = prefix.to_vec();
    while !p.is_empty() && !all.contains_key(&p) {
        let last = p.len() as u16;
        let r = (1..=last).find(|&r| all.contains_key(deleted(&p, &[r]).items())).unwrap_or(last);
        let shorter = deleted(&p, &[r]).items().to_vec();
        all.insert(p, vec![r]);
        p = shorter;
    }
    all
}

/// The entry that deletes some positions together.
pub fn deleting(prefix: &[u8], positions: &[u16]) -> Entry {
    Entry { prefix: Prefix::of(prefix), rule: Rule::deleting(positions), ..Entry::default() }
}

/// 23 patterns of length 8 beside 12: a long set with a short basis. Prefixes of length 6 that
/// contain 12 with and without the deleted position. Since order 3 only totals below 2 are compared
/// for it; before, it had 352,910 compared cells.
pub fn short_basis() -> Pair {
    let mut patterns = vec![Pattern::of(&[1, 2])];
    patterns.extend(&beginning_with(&[1, 2, 3, 4])[..PATTERNS - 1]);
    let mut needed = Deletions::new();
    let mut longest = Deletions::new();
    for target in words(5).into_iter().rev() {
        let below = with_targets(&needed, &target);
        if longest.len() >= 100 || longest.len() + below.len() > 100 {
            break;
        }
        needed = below;
        for p in words(6) {
            let leads = |r: &u16| deleted(&p, &[*r]).items() == target;
            if let Some(r) = (1..=6).find(leads) {
                longest.entry(p).or_insert(vec![r]);
            }
        }
    }
    let longest = longest.iter().take(100);
    let mut entries: Vec<Entry> = longest.chain(&needed).map(|(p, set)| deleting(p, set)).collect();
    for entry in &mut entries {
        match entry.prefix.items() {
            [1] => entry.vectors.push(Vector::of(&[0, 1])),
            [1, 2] => entry.vectors.push(Vector::of(&[0, 0, 0])),
            _ => {}
        }
    }
    entries.push(Entry::default());
    Pair { patterns, entries }
}

/// {12,87654321}, which is its own basis and has m = 8, with 128 entries that are accepted. Most of
/// them are prefixes of length 6 that contain 12 with and without the deleted position, so that all
/// sizes are 0: little to search, but 412,969 compared cells to go through.
pub fn own_basis() -> Pair {
    let patterns = vec![Pattern::of(&[1, 2]), Pattern::of(&[8, 7, 6, 5, 4, 3, 2, 1])];
    let root = [1, 2, 3, 4];
    let mut needed = with_targets(&Deletions::new(), &root);
    let mut longest = Deletions::new();
    let positions = |p: &[u8]| 1..=p.len() as u16;
    let leads = |p: &[u8], target: &[u8]| positions(p).find(|&r| deleted(p, &[r]).items() == target);
    for target in words(5).iter().filter(|p| leads(p, &root).is_some()) {
        if longest.len() + needed.len() + 1 >= ENTRIES {
            break;
        }
        needed = with_targets(&needed, target);
        for p in words(6) {
            if let Some(r) = leads(&p, target) {
                longest.entry(p).or_insert(vec![r]);
            }
        }
    }
    let longest = longest.iter().take(ENTRIES - 1 - needed.len());
    let all = longest.chain(needed.iter().rev());
    let mut entries: Vec<Entry> = all.map(|(p, set)| deleting(p, set)).collect();
    for entry in &mut entries {
        match entry.prefix.items() {
            // nothing above the first entry, and at most six values below it
            [1] => entry.vectors = Kept::of(&[Vector::of(&[0, 1]), Vector::of(&[7, 0])]),
            [1, 2] => entry.vectors.push(Vector::of(&[0, 0, 0])),
            _ => {}
        }
    }
    entries.push(Entry::default());
    Pair { patterns, entries }
}

/// The same set with 100 prefixes of length 6 that contain 123, each deleting the three positions
/// that are not in some copy of it; so all of them are true, and the scheme is accepted, with
/// 343,207 compared cells.
pub fn own_basis_together() -> Pair {
    let patterns = own_basis().patterns;
    let sets = sets_of(&[1, 2, 3, 4, 5, 6], 3);
    let leads = |p: &[u8]| sets.iter().find(|set| deleted(p, set).items() == [1, 2, 3]).cloned();
    let longest = words(6).into_iter().filter_map(|p| leads(&p).map(|set| deleting(&p, &set)));
    let mut entries: Vec<Entry> = longest.take(100).collect();
    let (mut target, mut one) = (deleting(&[1, 2, 3], &[1, 2]), deleting(&[1], &[1]));
    target.vectors = Kept::of(&[Vector::of(&[0, 0, 0, 0])]);
    one.vectors = Kept::of(&[Vector::of(&[0, 1]), Vector::of(&[7, 0])]);
    entries.extend([target, one, Entry::default()]);
    Pair { patterns, entries }
}

/// Random patterns of one length, and entries of length 6 with eight empty gap vectors of total 8
/// each; the entries that they need stand behind.
pub fn gap_vectors(length: usize, entries: usize, seed: u64) -> Pair {
    let mut random = Random::new(seed);
    let mut patterns: Vec<Pattern> = vec![];
    while patterns.len() < PATTERNS {
        let p = Pattern::of(&random.permutation(length));
        if !patterns.contains(&p) {
            patterns.push(p);
        }
    }
    let basis = basis(&patterns);
    let mut chosen: Vec<Entry> = vec![];
    let mut needed = Deletions::new();
    for target in words(5) {
        for p in words(6) {
            let leads = |r: &u16| deleted(&p, &[*r]).items() == target;
            let Some(r) = (1..=6).find(leads) else { continue };
            if chosen.len() == entries || chosen.iter().any(|e| e.prefix.items() == p) {
                continue;
            }
            let mut entry = deleting(&p, &[r]);
            for _ in 0..40 {
                let mut b = [0u16; COMPONENTS];
                (0..VECTOR_TOTAL).for_each(|_| b[random.below(COMPONENTS)] += 1);
                let v = Vector::of(&b);
                if entry.vectors.count() < VECTORS && !entry.vectors.items().contains(&v) && is_empty(&basis, &p, &b) {
                    entry.vectors.push(v);
                }
            }
            if entry.vectors.count() == VECTORS {
                needed = with_targets(&needed, &target);
                chosen.push(entry);
            }
        }
    }
    chosen.extend(needed.iter().rev().map(|(p, set)| deleting(p, set)));
    chosen.push(Entry::default());
    Pair { patterns, entries: chosen }
}

/// A few empty gap vectors of total 8 whose emptiness shows late: whatever begins with 1234 and has
/// four values above it contains a pattern, but the four others may stand anywhere between.
pub fn late_gap_vectors() -> Pair {
    let vectors = [[4, 0, 0, 0, 0, 0, 4], [0, 4, 0, 0, 0, 0, 4]];
    let mut entry = deleting(&[1, 6, 3, 2, 4, 5], &[2]);
    vectors.iter().for_each(|v| entry.vectors.push(Vector::of(v)));
    Pair { patterns: beginning_with(&[1, 2, 3, 4]), entries: with_needed(entry) }
}

/// A deletion whose first lost permutation has total 7 and stands late among the spacings of that
/// total; many candidates before it contain a pattern without the deleted position as well.
pub fn late_witness() -> Pair {
    let entry = deleting(&[2, 4, 5, 6, 3, 1], &[6]);
    Pair { patterns: beginning_with(&[1, 2, 3, 4]), entries: with_needed(entry) }
}

/// A well-formed scheme that begins with an entry, which deletes: behind it stand the deletions
/// that it needs, and ε.
pub fn with_needed(entry: Entry) -> Vec<Entry> {
    let Rule::Delete(set) = &entry.rule else { panic!("the entry expands") };
    let target = deleted(entry.prefix.items(), set.items());
    let needed = with_targets(&Deletions::new(), target.items());
    let mut entries = vec![entry];
    entries.extend(needed.iter().rev().map(|(p, set)| deleting(p, set)));
    entries.push(Entry::default());
    entries
}

/// No patterns, and 128 entries, most of them of length 6 with seven gap vectors. ε has a live gap
/// vector, so that judging ends there.
pub fn long_text() -> Pair {
    let mut entries = vec![Entry { vectors: Kept::of(&[Vector::of(&[0])]), ..Entry::default() }];
    let mut needed = Deletions::new();
    for p in words(6) {
        let below = with_targets(&needed, &p);
        if below.len() + 1 > ENTRIES {
            break;
        }
        needed = below;
    }
    for (p, set) in &needed {
        let mut entry = deleting(p, set);
        for i in 0..VECTORS.min(p.len() + 1) {
            let mut b = vec![1; p.len() + 1];
            b[i] = 2;
            entry.vectors.push(Vector::of(&b));
        }
        entries.push(entry);
    }
    Pair { patterns: vec![], entries }
}

/// The pair with a live gap vector on ε, which is the last entry: refused 10, whatever 11 would
/// find.
pub fn with_live_gap(mut pair: Pair) -> Pair {
    let root = pair.entries.last_mut().expect("an entry for ε");
    root.vectors.push(Vector::of(&[0]));
    pair
}
