//! The tests 2 to 4 of a pattern set and 2 to 9 of a scheme, each over the whole list before the
//! next.

use crate::model::*;
use crate::word::{child, code, deleted, is_permutation};

fn first<T>(items: &[T], number: u32, fault: impl Fn(usize, &T) -> bool) -> Result<(), Refusal> {
    match items.iter().enumerate().position(|(i, item)| fault(i, item)) {
        Some(i) => Err(Refusal(number, i)),
        None => Ok(()),
    }
}

pub fn test_patterns(patterns: &Patterns) -> Result<(), Refusal> {
    if patterns.count() > PATTERNS {
        return Err(Refusal(OVERSIZE, 0));
    }
    let items = patterns.items();
    first(items, OVERSIZE, |_, p| p.count() > PATTERN_LENGTH)?;
    first(items, NO_PERMUTATION, |_, p| p.count() == 0 || !is_permutation(p.items()))?;
    first(items, REPEATED, |i, p| items[..i].contains(p))
}

pub fn test_scheme(scheme: &Scheme) -> Result<(), Refusal> {
    if scheme.count > ENTRIES {
        return Err(Refusal(OVERSIZE, 0));
    }
    let entries = &scheme.entries[..];
    first(entries, OVERSIZE, |_, e| oversize(e))?;
    first(entries, NO_PERMUTATION, |_, e| !is_permutation(e.prefix.items()))?;
    let places = Places::of(entries);
    let find = |word: &[u8]| places.find(word);
    first(entries, REPEATED, |i, e| find(e.prefix.items()) != Some(i) || repeats(e.vectors.items()))?;
    if find(&[]).is_none() {
        return Err(Refusal(ROOTLESS, 0));
    }
    first(entries, WIDTH, |_, e| e.vectors.items().iter().any(|v| v.count() != e.prefix.count() + 1))?;
    first(entries, NO_POSITION, |_, e| match &e.rule {
        Rule::Expand => false,
        Rule::Delete(set) => !is_within(set, e.prefix.count()),
    })?;
    first(entries, CHILDLESS, |_, e| e.rule == Rule::Expand && (1..=e.prefix.count() + 1).any(|v| find(child(e.prefix.items(), v as u8).items()).is_none()))?;
    first(entries, NO_TARGET, |_, e| match &e.rule {
        Rule::Expand => false,
        Rule::Delete(set) => find(deleted(e.prefix.items(), set.items()).items()).is_none(),
    })
}

/// Whether a set has a position, each is above the one before it, and all lie within 1 to k. One
/// that is not kept in full has more positions than there are.
fn is_within(set: &Deletion, k: usize) -> bool {
    let positions = set.items();
    let inside = positions.iter().all(|&r| 1 <= r && r as usize <= k);
    let ascends = positions.windows(2).all(|two| two[0] < two[1]);
    set.count() > 0 && set.count() == positions.len() && inside && ascends
}

/// The first place of each prefix, by its code.
pub struct Places(Vec<(u64, usize)>);

impl Places {
    pub fn of(entries: &[Entry]) -> Places {
        let mut places: Vec<_> = entries.iter().enumerate().map(|(i, e)| (code(e.prefix.items()), i)).collect();
        places.sort_unstable();
        Places(places)
    }

    pub fn find(&self, word: &[u8]) -> Option<usize> {
        let code = code(word);
        let at = self.0.partition_point(|p| p.0 < code);
        self.0.get(at).filter(|p| p.0 == code).map(|p| p.1)
    }
}

fn oversize(entry: &Entry) -> bool {
    let vectors = entry.vectors.items();
    entry.prefix.count() > PREFIX_LENGTH
        || entry.vectors.count() > VECTORS
        || vectors.iter().any(|v| v.count() > COMPONENTS || v.items().iter().sum::<u16>() as usize > VECTOR_TOTAL)
}

fn repeats(vectors: &[Vector]) -> bool {
    (1..vectors.len()).any(|i| vectors[..i].contains(&vectors[i]))
}
