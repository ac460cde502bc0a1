//! Counting by inversions, for lengths up to 12.
//!
//! The figures of a cell are by the inversions behind its prefix: the pairs of which both entries
//! stand behind it. Then a deletion changes no figure, since it takes entries of the prefix alone.
//! A next entry leaves the part behind the prefix, and with it go as many pairs as there are unused
//! values below it; so the figures of a child are added that many places further on. At ε every
//! pair stands behind the prefix.

use crate::counting::{self, above_some, binomials, rank_left, rows, step, Binomials, Plan, Step};
use crate::judging::judge;
use crate::model::*;
use crate::notation::{read_patterns, read_scheme};
use crate::wellformed::Places;
use std::cmp::Reverse;

/// How many numbers of inversions a word of length n can have: 0 to n(n - 1)/2.
pub fn figures(n: usize) -> usize {
    n * n.saturating_sub(1) / 2 + 1
}

/// The cells that counting by inversions needs for n: those of counting, once for each figure.
pub fn need(scheme: &Scheme, n: usize) -> u64 {
    counting::need(scheme, n) * figures(n) as u64
}

/// The number of avoiders of length n with 0, 1, .. inversions at the front of `results`; how many
/// figures these are, or a refusal.
pub fn count_by_inversions(patterns: &Patterns, scheme: &Scheme, n: usize, table: &mut [u64], results: &mut [u64]) -> Result<usize, Refusal> {
    judge(patterns, scheme)?;
    if n > LONGEST_BY_INVERSIONS {
        return Err(Refusal(OVERSIZE, 0));
    }
    let needed = need(scheme, n);
    if (table.len() as u64) < needed {
        return Err(Refusal(SHORT_TABLE, 0));
    }
    if results.len() < figures(n) {
        return Err(Refusal(SHORT_PAGE, 0));
    }
    fill_results(patterns, scheme, n, &mut table[..needed as usize], &mut results[..figures(n)]);
    Ok(figures(n))
}

/// The same on two texts.
pub fn inversions_of_texts(patterns: &[u8], scheme: &[u8], n: usize, table: &mut [u64], results: &mut [u64]) -> Result<usize, Refusal> {
    let patterns = read_patterns(patterns)?;
    let scheme = read_scheme(scheme)?;
    count_by_inversions(&patterns, &scheme, n, table, results)
}

/// Fills the results for an accepted scheme, with a table of just the cells that are needed, which
/// hold 0 afterwards. Row j stands in block j modulo the number of rows that are kept.
fn fill_results(patterns: &Patterns, scheme: &Scheme, n: usize, table: &mut [u64], results: &mut [u64]) {
    let c = binomials();
    let (plans, width) = plans(patterns, scheme, n, &c);
    let kept = rows(scheme);
    let mut rows: Vec<&mut [u64]> = table[..kept * width].chunks_exact_mut(width).collect();
    for j in 0..=n {
        let block = j % kept;
        let row = std::mem::take(&mut rows[block]);
        for plan in plans.iter().filter(|plan| plan.length <= j) {
            let before = (j - plan.size()) % kept;
            fill(plan, j, row, &*rows[before], &c);
        }
        rows[block] = row;
    }
    let root = plans.last().expect("there is an entry for ε").place;
    results.copy_from_slice(&rows[n % kept][root..root + results.len()]);
    table.fill(0);
}

/// The entries by falling prefix length, each with the place of its figures in a row; and the width
/// of a row. The places follow the same order, so that all that is added up for a cell stands
/// before it.
fn plans<'a>(patterns: &Patterns, scheme: &'a Scheme, n: usize, c: &Binomials) -> (Vec<Plan<'a>>, usize) {
    let entries = &scheme.entries[..];
    let mut order: Vec<usize> = (0..entries.len()).collect();
    order.sort_by_key(|&i| Reverse(entries[i].prefix.count()));
    let mut places = vec![0; entries.len()];
    let mut width = 0;
    for &i in &order {
        let k = entries[i].prefix.count();
        places[i] = width;
        // there are no cells of a prefix that is longer than n
        width += c[n][k] as usize * figures(n.saturating_sub(k));
    }
    let by_prefix = Places::of(entries);
    let place_of = |word: &[u8]| places[by_prefix.find(word).expect("the scheme is well-formed")];
    let plan = |&i: &usize| {
        let e = &entries[i];
        Plan { length: e.prefix.count(), place: places[i], vectors: e.vectors.items(), step: step(patterns, e, place_of) }
    };
    (order.iter().map(plan).collect(), width)
}

/// Fills the figures of the cells of an entry at length j, one cell after the other, in the order
/// of counting.
fn fill(plan: &Plan, j: usize, row: &mut [u64], before: &[u64], c: &Binomials) {
    let k = plan.length;
    let width = figures(j - k);
    let (longer, own) = row.split_at_mut(plan.place);
    let mut set = [0usize; PREFIX_LENGTH + 1];
    for (i, s) in set[..k].iter_mut().enumerate() {
        *s = i;
    }
    set[k] = j;
    for cell in own.chunks_exact_mut(width).take(c[j][k] as usize) {
        if above_some(plan.vectors, &set, k) {
            cell.fill(0);
        } else {
            match &plan.step {
                Step::Take(removal) => {
                    // the target has as many entries behind its prefix, so as many figures
                    let at = removal.target + width * rank_left(&set, removal.left.items(), c);
                    cell.copy_from_slice(&before[at..at + width]);
                }
                Step::Sum(_, whole) if j == k => cell[0] = *whole,
                Step::Sum(children, _) => add_up(children, &set, k, longer, cell, c),
            }
        }
        // the next set of first values, in the order of the cells
        let Some(i) = (0..k).find(|&i| set[i] + 1 < set[i + 1]) else { break };
        set[i] += 1;
        for (l, s) in set[..i].iter_mut().enumerate() {
            *s = l;
        }
    }
}

/// The sum over every next value, each of whose figures goes as many places further on as there are
/// unused values below it.
fn add_up(children: &[usize; PREFIX_LENGTH + 1], set: &[usize; PREFIX_LENGTH + 1], k: usize, longer: &[u64], cell: &mut [u64], c: &Binomials) {
    let width = figures(set[k] - k - 1);
    cell.fill(0);
    // the rank of the values above a new one, which move up a place, and of those below it
    let mut above: u64 = (0..k).map(|i| c[set[i]][i + 2]).sum();
    let mut below = 0;
    let (mut x, mut unused) = (0, 0);
    for i in 0..=k {
        let rank = below + above;
        while x < set[i] {
            let at = children[i] + width * (rank + c[x][i + 1]) as usize;
            for (figure, more) in cell[unused..].iter_mut().zip(&longer[at..at + width]) {
                *figure = figure.wrapping_add(*more);
            }
            unused += 1;
            x += 1;
        }
        x += 1;
        if i < k {
            below += c[set[i]][i + 1];
            above -= c[set[i]][i + 2];
        }
    }
}
