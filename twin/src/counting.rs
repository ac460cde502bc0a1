//! Counting: one pass over the lengths, in rows of cells that are ranked by their sets of first
//! values; and plain evaluation.

use crate::judging::{avoids, judge};
use crate::model::*;
use crate::wellformed::Places;
use crate::word::{child, deleted, gone_values};

pub type Binomials = [[u64; 9]; LONGEST + 2];

/// C(n, k) for n up to 21 and k up to 8, by Pascal's rule.
pub fn binomials() -> Binomials {
    let mut c = [[0u64; 9]; LONGEST + 2];
    for n in 0..c.len() {
        c[n][0] = 1;
        for k in 1..9.min(n + 1) {
            c[n][k] = c[n - 1][k - 1] + c[n - 1][k];
        }
    }
    c
}

/// The rows that the table keeps: one, and one more for each position of the largest set that an
/// entry deletes, whether or not the entry is reached.
pub fn rows(scheme: &Scheme) -> usize {
    1 + scheme.entries.iter().map(|e| e.rule.size()).max().unwrap_or(0)
}

/// The cells that counting to n needs.
pub fn need(scheme: &Scheme, n: usize) -> u64 {
    let c = binomials();
    rows(scheme) as u64 * scheme.entries.iter().map(|e| c[n][e.prefix.count()]).sum::<u64>()
}

/// What is done at the cells of an entry.
pub enum Step {
    /// the places of the children, by the number of first values below the new one; the value at
    /// total 0
    Sum([usize; PREFIX_LENGTH + 1], u64),
    Take(Removal),
}

/// A deletion, as counting needs it.
pub struct Removal {
    /// the place of the target
    pub target: usize,
    /// how many positions go
    size: usize,
    /// of the sorted first values, from 0, those that stay, each with how many below it go
    pub left: Kept<(u8, u8), PREFIX_LENGTH>,
    /// for each component of a spacing, the one of the merged spacing that it is added to
    into: [usize; COMPONENTS],
}

/// The deletion of some positions of a prefix, all together.
fn removal(target: usize, prefix: &[u8], positions: &[u16]) -> Removal {
    let gone = gone_values(prefix, positions) >> 1;
    let below = |i: usize| (gone & ((1 << i) - 1)).count_ones() as usize;
    let mut into = [0; COMPONENTS];
    for (i, place) in into[..=prefix.len()].iter_mut().enumerate() {
        *place = i - below(i);
    }
    let mut left = Kept::new();
    for i in (0..prefix.len()).filter(|i| gone >> i & 1 == 0) {
        left.push((i as u8, below(i) as u8));
    }
    Removal { target, size: positions.len(), left, into }
}

/// The step of an entry, from the places of the prefixes.
pub fn step(patterns: &Patterns, entry: &Entry, place_of: impl Fn(&[u8]) -> usize) -> Step {
    let prefix = entry.prefix.items();
    match &entry.rule {
        Rule::Expand => {
            let mut children = [0; PREFIX_LENGTH + 1];
            for (below, place) in children[..=prefix.len()].iter_mut().enumerate() {
                *place = place_of(child(prefix, below as u8 + 1).items());
            }
            Step::Sum(children, avoids(patterns.items(), prefix) as u64)
        }
        Rule::Delete(set) => {
            let target = place_of(deleted(prefix, set.items()).items());
            Step::Take(removal(target, prefix, set.items()))
        }
    }
}

/// An entry, as counting needs it: the length of its prefix, and the place of its cells in a row.
pub struct Plan<'a> {
    pub length: usize,
    pub place: usize,
    pub vectors: &'a [Vector],
    pub step: Step,
}

impl Plan<'_> {
    /// How many positions go: the values of a target stand in a row so many lengths before.
    pub fn size(&self) -> usize {
        match &self.step {
            Step::Sum(..) => 0,
            Step::Take(removal) => removal.size,
        }
    }
}

/// The entries by falling prefix length, each with its place in a row of cells for lengths up to n;
/// and the width of a row.
fn plans<'a>(patterns: &Patterns, scheme: &'a Scheme, n: usize, c: &Binomials) -> (Vec<Plan<'a>>, usize) {
    let entries = &scheme.entries[..];
    let mut places = Vec::with_capacity(entries.len());
    let mut width = 0;
    for e in entries {
        places.push(width);
        width += c[n][e.prefix.count()] as usize;
    }
    let by_prefix = Places::of(entries);
    let place_of = |word: &[u8]| places[by_prefix.find(word).expect("the scheme is well-formed")];
    let plan = |(e, &place): (&'a Entry, &usize)| Plan { length: e.prefix.count(), place, vectors: e.vectors.items(), step: step(patterns, e, place_of) };
    let mut plans: Vec<Plan> = entries.iter().zip(&places).map(plan).collect();
    plans.sort_by_key(|p| std::cmp::Reverse(p.length));
    (plans, width)
}

/// The counts for 0 to n. The scheme is accepted and the table has the cells that n needs, which
/// hold 0 afterwards. Row j stands in block j modulo the number of rows that are kept.
pub fn counts(patterns: &Patterns, scheme: &Scheme, n: usize, table: &mut [u64]) -> Vec<u64> {
    let c = binomials();
    let (plans, width) = plans(patterns, scheme, n, &c);
    let table = &mut table[..rows(scheme) * width];
    let mut rows: Vec<&mut [u64]> = table.chunks_exact_mut(width).collect();
    let root = plans.last().expect("there is an entry for ε").place;
    let mut counts = Vec::with_capacity(n + 1);
    for j in 0..=n {
        let block = j % rows.len();
        let row = std::mem::take(&mut rows[block]);
        for plan in plans.iter().filter(|plan| plan.length <= j) {
            let before = (j - plan.size()) % rows.len();
            fill(plan, j, row, &*rows[before], &c);
        }
        counts.push(row[root]);
        rows[block] = row;
    }
    table.fill(0);
    counts
}

/// Fills the cells of an entry at length j. A cell is its set of first values, from 0 and
/// ascending, with a sentinel behind: at rank C(c0, 1) + C(c1, 2) + ..
fn fill(plan: &Plan, j: usize, row: &mut [u64], before: &[u64], c: &Binomials) {
    let k = plan.length;
    let mut set = [0usize; PREFIX_LENGTH + 1];
    for (i, s) in set[..k].iter_mut().enumerate() {
        *s = i;
    }
    set[k] = j;
    for rank in 0..c[j][k] as usize {
        row[plan.place + rank] = if above_some(plan.vectors, &set, k) {
            0
        } else {
            match &plan.step {
                Step::Take(removal) => before[removal.target + rank_left(&set, removal.left.items(), c)],
                Step::Sum(_, whole) if j == k => *whole,
                Step::Sum(children, _) => sum(children, &set, k, row, c),
            }
        };
        // the next set of first values, in the order of the cells
        let Some(i) = (0..k).find(|&i| set[i] + 1 < set[i + 1]) else { break };
        set[i] += 1;
        for (l, s) in set[..i].iter_mut().enumerate() {
            *s = l;
        }
    }
}

/// Whether the spacing of a set of first values is at least one of the vectors in each component.
/// Inlined, as `rank_left` is, in both loops over cells: as calls they slow a short count by a
/// tenth.
#[inline(always)]
pub fn above_some(vectors: &[Vector], set: &[usize; PREFIX_LENGTH + 1], k: usize) -> bool {
    if vectors.is_empty() {
        return false;
    }
    let mut g = [0u16; COMPONENTS];
    let mut next = 0;
    for i in 0..=k {
        g[i] = (set[i] - next) as u16;
        next = set[i] + 1;
    }
    vectors.iter().any(|v| v.items().iter().zip(&g).all(|(b, x)| b <= x))
}

/// The rank of the values that stay: each falls by the number of those below it that go.
#[inline(always)]
pub fn rank_left(set: &[usize; PREFIX_LENGTH + 1], left: &[(u8, u8)], c: &Binomials) -> usize {
    let mut rank = 0;
    for (at, &(i, below)) in left.iter().enumerate() {
        rank += c[set[i as usize] - below as usize][at + 1];
    }
    rank as usize
}

/// The sum over every next value.
fn sum(children: &[usize; PREFIX_LENGTH + 1], set: &[usize; PREFIX_LENGTH + 1], k: usize, row: &[u64], c: &Binomials) -> u64 {
    // the rank of the values above a new one, which move up a place, and of those below it
    let mut above: u64 = (0..k).map(|i| c[set[i]][i + 2]).sum();
    let mut below = 0;
    let mut value = 0u64;
    let mut x = 0;
    for i in 0..=k {
        let rank = below + above;
        while x < set[i] {
            value = value.wrapping_add(row[children[i] + (rank + c[x][i + 1]) as usize]);
            x += 1;
        }
        x += 1;
        if i < k {
            below += c[set[i]][i + 1];
            above -= c[set[i]][i + 2];
        }
    }
    value
}

/// Counts for n: judges, tests n, tests the table, and counts.
pub fn count(patterns: &Patterns, scheme: &Scheme, n: usize, table: &mut [u64]) -> Result<u64, Refusal> {
    judge(patterns, scheme)?;
    if n > LONGEST {
        return Err(Refusal(OVERSIZE, 0));
    }
    if (table.len() as u64) < need(scheme, n) {
        return Err(Refusal(SHORT_TABLE, 0));
    }
    Ok(counts(patterns, scheme, n, table)[n])
}

/// Counts for n up to 9 without a table: a cell asks for its children's sum, and the sum asks for
/// cells.
pub fn plain(patterns: &Patterns, scheme: &Scheme, n: usize) -> Result<u64, Refusal> {
    judge(patterns, scheme)?;
    if n > LONGEST_PLAIN {
        return Err(Refusal(OVERSIZE, 0));
    }
    let evaluation = Evaluation::of(patterns, scheme);
    let mut g = [0; COMPONENTS];
    g[0] = n as u8;
    Ok(evaluation.cell(evaluation.root, &g, n as u8))
}

/// The entries with the places of their children and targets.
pub struct Evaluation<'a> {
    entries: &'a [Entry],
    steps: Vec<Step>,
    root: usize,
}

impl Evaluation<'_> {
    pub fn of<'a>(patterns: &Patterns, scheme: &'a Scheme) -> Evaluation<'a> {
        let entries = &scheme.entries[..];
        let places = Places::of(entries);
        let find = |word: &[u8]| places.find(word).expect("the scheme is well-formed");
        Evaluation { entries, steps: entries.iter().map(|e| step(patterns, e, find)).collect(), root: find(&[]) }
    }

    fn cell(&self, e: usize, g: &[u8; COMPONENTS], total: u8) -> u64 {
        let entry = &self.entries[e];
        let k = entry.prefix.count();
        if entry.vectors.items().iter().any(|v| v.items().iter().zip(g).all(|(&b, &x)| b <= x as u16)) {
            return 0;
        }
        match &self.steps[e] {
            Step::Take(removal) => {
                let mut merged = [0; COMPONENTS];
                for (&x, &i) in g[..=k].iter().zip(&removal.into) {
                    merged[i] += x;
                }
                self.cell(removal.target, &merged, total)
            }
            Step::Sum(_, whole) if total == 0 => *whole,
            Step::Sum(children, _) => self.sum(children, k, g, total),
        }
    }

    /// The sum over every next entry: each value of each component.
    fn sum(&self, children: &[usize; PREFIX_LENGTH + 1], k: usize, g: &[u8; COMPONENTS], total: u8) -> u64 {
        let mut value = 0u64;
        for i in 0..=k {
            let mut split = [0; COMPONENTS];
            split[..i].copy_from_slice(&g[..i]);
            split[i + 2..k + 2].copy_from_slice(&g[i + 1..=k]);
            for x in 0..g[i] {
                split[i] = x;
                split[i + 1] = g[i] - 1 - x;
                value = value.wrapping_add(self.cell(children[i], &split, total - 1));
            }
        }
        value
    }
}
