//! Judging: the tests 10 and 11 by searches that list no cell, and the number of compared cells.

use crate::model::*;
use crate::notation::{read_patterns, read_scheme};
use crate::word::{ends_copy, has_copy};

/// Judges two texts: the number of compared cells, or a refusal.
pub fn judge_texts(patterns: &[u8], scheme: &[u8]) -> Result<usize, Refusal> {
    let patterns = read_patterns(patterns)?;
    let scheme = read_scheme(scheme)?;
    judge(&patterns, &scheme)
}

/// Judges the claims of a well-formed scheme.
pub fn judge(patterns: &Patterns, scheme: &Scheme) -> Result<usize, Refusal> {
    judge_showing(patterns, scheme).0
}

/// The number of compared cells, or a refusal.
type Verdict = Result<usize, Refusal>;

/// The verdict on the claims of a well-formed scheme and, with refusal 11, the permutation that is
/// lost.
pub fn judge_showing(patterns: &Patterns, scheme: &Scheme) -> (Verdict, Option<Shown>) {
    let basis = basis(patterns.items());
    let entries = &scheme.entries[..];
    let live = |e: &Entry| e.vectors.items().iter().any(|v| !is_empty(&basis, e.prefix.items(), v.items()));
    if let Some(i) = entries.iter().position(live) {
        return (Err(Refusal(LIVE_GAP, i)), None);
    }
    for (i, e) in entries.iter().enumerate() {
        let Rule::Delete(set) = &e.rule else { continue };
        let shown = lost(&basis, e.prefix.items(), e.vectors.items(), set.items());
        if shown.is_some() {
            return (Err(Refusal(IRREVERSIBLE, i)), shown);
        }
    }
    let m = longest(&basis);
    (Ok(entries.iter().map(|e| compared(e, m)).sum()), None)
}

/// The length of the longest of some patterns, 0 for none. Of the basis of a set it is m, as order
/// 3 defines it.
pub fn longest(patterns: &[Pattern]) -> usize {
    patterns.iter().map(|p| p.count()).max().unwrap_or(0)
}

/// The m of document 01 before order 3: the length of the longest pattern of the whole set, 0 for
/// no patterns. It is at least the m of order 3, and with it as many cells are compared or more;
/// acceptance, the number and index of a refusal and the witness are the same, which the slow mode
/// tests.
pub fn old_longest(patterns: &Patterns) -> usize {
    longest(patterns.items())
}

/// The m of order 3: the length of the longest of the patterns that contain no other pattern of the
/// set, 0 for no patterns. `judge_showing` has the basis at hand and takes its longest.
pub fn new_longest(patterns: &Patterns) -> usize {
    longest(&basis(patterns.items()))
}

/// The patterns that contain no other pattern of the set. The others change no cell.
pub fn basis(patterns: &[Pattern]) -> Vec<Pattern> {
    let within = |q: &Pattern, p: &Pattern| q != p && has_copy(q.items(), p.items());
    let minimal = |p: &&Pattern| !patterns.iter().any(|q| within(q, p));
    patterns.iter().filter(minimal).copied().collect()
}

pub fn avoids(patterns: &[Pattern], word: &[u8]) -> bool {
    !patterns.iter().any(|p| has_copy(p.items(), word))
}

/// Whether g is at least one of the vectors in each component.
pub fn covered(vectors: &[Vector], g: &[u8]) -> bool {
    vectors.iter().any(|v| v.items().iter().zip(g).all(|(&b, &x)| b <= x as u16))
}

/// The number of spacings that are compared for an entry.
fn compared(entry: &Entry, m: usize) -> usize {
    if entry.rule == Rule::Expand {
        return 0;
    }
    let mut count = 0;
    for total in 0..m {
        each_spacing(entry.prefix.count() + 1, total, &mut |g| {
            count += !covered(entry.vectors.items(), g) as usize;
            false
        });
    }
    count
}

/// Goes through the spacings of a width and total, in lexicographic order, until the test says yes;
/// whether it did.
pub fn each_spacing(width: usize, total: usize, test: &mut impl FnMut(&[u8]) -> bool) -> bool {
    let mut g = [0u8; COMPONENTS];
    let g = &mut g[..width];
    g[width - 1] = total as u8;
    loop {
        if test(g) {
            return true;
        }
        // The next one: the last component that is not 0 gives one to its left neighbour, and the
        // rest of it goes to the end.
        let Some(last) = g.iter().rposition(|x| *x > 0) else { return false };
        if last == 0 {
            return false;
        }
        let rest = g[last] - 1;
        g[last] = 0;
        g[last - 1] += 1;
        g[width - 1] = rest;
    }
}

/// The first entries of the cell (p; g) as values, and the other values, ascending.
fn values(prefix: &[u8], g: &[u8]) -> ([u8; PREFIX_LENGTH], [u8; 32]) {
    let mut of = [0u8; PREFIX_LENGTH + 1];
    let mut free = [0u8; 32];
    let (mut next, mut n) = (1u8, 0);
    for (i, &x) in g.iter().enumerate() {
        for _ in 0..x {
            free[n] = next;
            n += 1;
            next += 1;
        }
        if i < prefix.len() {
            of[i + 1] = next;
            next += 1;
        }
    }
    let mut word = [0u8; PREFIX_LENGTH];
    for (w, &p) in word.iter_mut().zip(prefix) {
        *w = of[p as usize];
    }
    (word, free)
}

/// Whether the cell (p; b) is empty.
pub fn is_empty(basis: &[Pattern], prefix: &[u8], b: &[u16]) -> bool {
    let g: Vec<u8> = b.iter().map(|&x| x as u8).collect();
    let (first, _) = values(prefix, &g);
    let k = prefix.len();
    let n = k + g.iter().sum::<u8>() as usize;
    let mut word = [0u8; 32];
    word[..k].copy_from_slice(&first[..k]);
    let unused = first[..k].iter().fold((1u32 << (n + 1)) - 2, |set, &v| set & !(1 << v));
    !avoids(basis, &word[..k]) || !completable(basis, &mut word, k, unused)
}

/// Whether some order of the unused values, appended to the first k entries of the word, gives an
/// avoider. The word avoids. A value that cannot follow now cannot follow later, so one such value
/// ends the search.
fn completable(basis: &[Pattern], word: &mut [u8; 32], k: usize, unused: u32) -> bool {
    if unused == 0 {
        return true;
    }
    for v in bits(unused) {
        word[k] = v;
        if basis.iter().any(|p| ends_copy(p.items(), &word[..=k])) {
            return false;
        }
    }
    for v in bits(unused) {
        word[k] = v;
        if completable(basis, word, k + 1, unused & !(1 << v)) {
            return true;
        }
    }
    false
}

fn bits(mut set: u32) -> impl Iterator<Item = u8> {
    std::iter::from_fn(move || {
        let v = set.trailing_zeros();
        set &= set.wrapping_sub(1);
        (v < 32).then_some(v as u8)
    })
}

/// A pattern cut before its last `total` entries.
struct Cut<'a> {
    pattern: &'a Pattern,
    /// the first entries
    head: &'a [u8],
    /// how many of the last entries are smaller, for each of the first ones
    below: [u8; PATTERN_LENGTH],
    /// the last entries, reduced
    tail: [u8; PATTERN_LENGTH],
}

fn cut(pattern: &Pattern, total: usize) -> Cut<'_> {
    let (head, last) = pattern.items().split_at(pattern.count() - total);
    let smaller = |x: u8| last.iter().filter(|y| **y < x).count() as u8;
    let (mut below, mut tail) = ([0; PATTERN_LENGTH], [0; PATTERN_LENGTH]);
    for (b, &x) in below.iter_mut().zip(head) {
        *b = smaller(x);
    }
    for (t, &x) in tail.iter_mut().zip(last) {
        *t = smaller(x) + 1;
    }
    Cut { pattern, head, below, tail }
}

/// Whether deleting the positions together is no bijection for some spacing at or above no vector.
pub fn violated(basis: &[Pattern], prefix: &[u8], vectors: &[Vector], positions: &[u16]) -> bool {
    lost(basis, prefix, vectors, positions).is_some()
}

/// Some positions of a prefix, which count from 1, as bits from 0 on.
type Gone = u32;

fn gone(positions: &[u16]) -> Gone {
    positions.iter().fold(0, |gone, r| gone | 1 << (r - 1))
}

/// The permutation that deleting the positions together loses, where there is one: of those at a
/// spacing at or above no vector that contain a pattern, while they avoid without these positions,
/// the one with the least total, then the least spacing, then the least itself. At the least total
/// each of them is a candidate: a prefix at a spacing g followed by as many values as g has, in the
/// order of the last entries of a pattern, with a copy of the pattern through some deleted position
/// and all the last entries; any other would stay lost without an entry that some copy in it leaves
/// out, at a smaller total. So the least of the candidates of all patterns at the first spacing
/// that has one is the one shown; the first one found there need not be the least.
pub fn lost(basis: &[Pattern], prefix: &[u8], vectors: &[Vector], positions: &[u16]) -> Option<Shown> {
    let (k, gone) = (prefix.len(), gone(positions));
    let mut least: Option<Shown> = None;
    (0..longest(basis)).any(|total| {
        let fitting = basis.iter().filter(|p| total < p.count() && p.count() <= total + k);
        let cuts: Vec<Cut> = fitting.map(|p| cut(p, total)).collect();
        !cuts.is_empty()
            && each_spacing(k + 1, total, &mut |g| {
                if covered(vectors, g) {
                    return false;
                }
                let levels = levels(prefix, g);
                for c in &cuts {
                    let chosen = &mut [0; PATTERN_LENGTH];
                    let placed = placed(c, prefix, &levels, gone, chosen, 0, 0, false);
                    if placed && rest_avoids(basis, prefix, g, gone, total, c) {
                        let word = candidate(prefix, g, total, c);
                        if least.is_none_or(|l| word.items() < l.items()) {
                            least = Some(word);
                        }
                    }
                }
                least.is_some()
            })
    });
    least
}

/// The candidate of a pattern at a spacing.
fn candidate(prefix: &[u8], g: &[u8], total: usize, cut: &Cut) -> Shown {
    let (first, free) = values(prefix, g);
    let mut word = Shown::of(&first[..prefix.len()]);
    for &t in &cut.tail[..total] {
        word.push(free[t as usize - 1]);
    }
    word
}

/// For each position, how many of the other values are smaller.
fn levels(prefix: &[u8], g: &[u8]) -> [u8; PREFIX_LENGTH] {
    let mut sums = [0u8; PREFIX_LENGTH + 1];
    for i in 0..prefix.len() {
        sums[i + 1] = sums[i] + g[i];
    }
    let mut levels = [0u8; PREFIX_LENGTH];
    for (l, &p) in levels.iter_mut().zip(prefix) {
        *l = sums[p as usize];
    }
    levels
}

/// Whether the candidate avoids without the deleted positions.
fn rest_avoids(basis: &[Pattern], prefix: &[u8], g: &[u8], gone: Gone, total: usize, cut: &Cut) -> bool {
    let (first, free) = values(prefix, g);
    let mut word = [0u8; 32];
    let mut n = 0;
    for (i, &v) in first[..prefix.len()].iter().enumerate() {
        if gone >> i & 1 == 0 {
            word[n] = v;
            n += 1;
        }
    }
    for &t in &cut.tail[..total] {
        word[n] = free[t as usize - 1];
        n += 1;
    }
    let word = &word[..n];
    !has_copy(cut.pattern.items(), word) && avoids(basis, word)
}

/// Whether the head goes on from `depth` with positions from `from` on, at the levels that it
/// needs, through a deleted position.
#[allow(clippy::too_many_arguments)]
fn placed(
    cut: &Cut,
    prefix: &[u8],
    levels: &[u8; PREFIX_LENGTH],
    gone: Gone,
    chosen: &mut [u8; PATTERN_LENGTH],
    depth: usize,
    from: usize,
    through: bool,
) -> bool {
    if depth == cut.head.len() {
        return through;
    }
    if !through && gone >> from == 0 {
        return false;
    }
    let p = cut.head[depth];
    for at in from..=prefix.len() + depth - cut.head.len() {
        let x = prefix[at];
        if levels[at] == cut.below[depth] && (0..depth).all(|i| (cut.head[i] < p) == (chosen[i] < x)) {
            chosen[depth] = x;
            let through = through || gone >> at & 1 == 1;
            if placed(cut, prefix, levels, gone, chosen, depth + 1, at + 1, through) {
                return true;
            }
        }
    }
    false
}
