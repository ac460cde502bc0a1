//! Inputs of counting by inversions: those that were worked out by hand, and the lengths and the
//! lent memory of the others.

use crate::counting;
use crate::inversions::{figures, need};
use crate::model::{Scheme, LONGEST_BY_INVERSIONS};
use crate::random::Random;
use crate::set_inputs::{E_1234, PAIRS};

/// Schemes of document 01 and of the published papers.
const ALL: &str = "{(ε,∅,∅),(1,∅,{1})}";
const NONE: &str = "{(ε,∅,∅),(1,{⟨0,0⟩},{1})}";
const FOR_123: &str = "{(ε,∅,∅),(1,∅,∅),(12,{⟨0,0,1⟩},{2}),(21,∅,{1})}";
const FOR_132: &str = "{(ε,∅,∅),(1,∅,∅),(12,{⟨0,1,0⟩},{1}),(21,∅,{1})}";
const FOR_1423: &str = "{(ε,∅,∅),(1,∅,∅),(12,{⟨0,2,0⟩},{2}),(21,∅,{1})}";

/// A set, its scheme, a length and the figures.
type Example = (&'static str, &'static str, usize, &'static [u64]);

/// The figures that were worked out by hand.
pub const EXAMPLES: [Example; 15] = [
    ("∅", ALL, 0, &[1]),
    ("∅", ALL, 1, &[1]),
    ("∅", ALL, 2, &[1, 1]),
    ("∅", ALL, 3, &[1, 2, 2, 1]),
    ("∅", ALL, 4, &[1, 3, 5, 6, 5, 3, 1]),
    ("∅", PAIRS, 0, &[1]),
    ("∅", PAIRS, 1, &[1]),
    ("∅", PAIRS, 4, &[1, 3, 5, 6, 5, 3, 1]),
    ("{1}", NONE, 0, &[1]),
    ("{1}", NONE, 1, &[0]),
    ("{1}", NONE, 3, &[0, 0, 0, 0]),
    ("{123}", FOR_123, 4, &[0, 0, 1, 4, 5, 3, 1]),
    ("{132}", FOR_132, 4, &[1, 1, 2, 3, 3, 3, 1]),
    ("{1423,1432}", FOR_1423, 5, &[1, 4, 7, 9, 12, 15, 15, 13, 9, 4, 1]),
    ("{1234}", E_1234, 5, &[0, 0, 3, 11, 18, 22, 20, 15, 9, 4, 1]),
];

/// Schemes without patterns, whose figures are known at every length.
pub const WITHOUT_PATTERNS: [&str; 3] = [ALL, "{(ε,∅,∅),(1,∅,∅),(12,∅,{2}),(21,∅,{1})}", PAIRS];

/// The figures of all permutations: the entry that stands before i others can have any number of
/// smaller ones behind it, from 0 to i.
pub fn of_all(n: usize) -> Vec<u64> {
    let mut row = vec![1];
    for i in 0..n {
        let mut longer = vec![0; row.len() + i];
        for smaller in 0..=i {
            row.iter().zip(&mut longer[smaller..]).for_each(|(figure, sum)| *sum += figure);
        }
        row = longer;
    }
    row
}

/// The length that is asked for, and the lengths of the table and the results that are lent.
#[derive(Clone, Copy, Debug)]
pub struct Lent {
    pub n: usize,
    pub cells: usize,
    pub results: usize,
}

/// A set, a scheme, what is lent, and the number of the refusal, or 0 where the results are filled.
type Answered = (&'static str, &'static str, Lent, u32);

const fn answered(set: &'static str, scheme: &'static str, lent: [usize; 3], number: u32) -> Answered {
    let [n, cells, results] = lent;
    (set, scheme, Lent { n, cells, results }, number)
}

/// Answers that were worked out by hand. The need of the scheme for {1423,1432} is 52 cells at 5
/// and 290 at 12, with 11 and 67 figures; that of PAIRS is 3 cells at 0 and 6 at 1, with one figure
/// each.
pub const ANSWERS: [Answered; 24] = [
    answered("{1423,1432}", FOR_1423, [5, 572, 11], 0),
    answered("{1423,1432}", FOR_1423, [5, 573, 12], 0),
    answered("{1423,1432}", FOR_1423, [5, 571, 11], 12),
    answered("{1423,1432}", FOR_1423, [5, 572, 10], 13),
    // 12 comes before 13, and 2 before both
    answered("{1423,1432}", FOR_1423, [5, 571, 10], 12),
    answered("{1423,1432}", FOR_1423, [5, 52, 0], 12),
    answered("{1423,1432}", FOR_1423, [5, 0, 0], 12),
    answered("{1423,1432}", FOR_1423, [12, 19_430, 67], 0),
    answered("{1423,1432}", FOR_1423, [12, 19_429, 67], 12),
    answered("{1423,1432}", FOR_1423, [12, 19_430, 66], 13),
    answered("{1423,1432}", FOR_1423, [13, 60_000, 100], 2),
    answered("{1423,1432}", FOR_1423, [13, 0, 0], 2),
    answered("{1423,1432}", FOR_1423, [usize::MAX, 0, 100], 2),
    answered("∅", PAIRS, [0, 3, 1], 0),
    answered("∅", PAIRS, [0, 2, 1], 12),
    answered("∅", PAIRS, [0, 3, 0], 13),
    answered("∅", PAIRS, [1, 6, 1], 0),
    answered("∅", PAIRS, [1, 5, 1], 12),
    answered("∅", PAIRS, [1, 6, 0], 13),
    // every test of the set and of the scheme comes before that of n
    answered("{}", FOR_123, [13, 0, 0], 1),
    answered("{123,123}", FOR_123, [13, 0, 0], 4),
    answered("{123}", "{(ε,∅,∅)}", [13, 0, 0], 8),
    answered("{123}", "{(ε,∅,∅),(1,∅,∅),(12,{⟨0,1,0⟩},{2}),(21,∅,{1})}", [13, 0, 0], 10),
    answered("{123}", FOR_132, [usize::MAX, 0, 0], 10),
];

/// Lengths that are not counted; some are a small one again if only their last bits are looked at.
const TOO_LONG: [usize; 14] = [13, 14, 20, 21, 64, 255, 256, 268, 65_541, 1 << 32, (1 << 32) + 5, usize::MAX / 2, usize::MAX - 1, usize::MAX];

/// A length: one in sixteen of them is too long, one in four the greatest that is counted.
fn length(r: &mut Random) -> usize {
    match r.below(16) {
        0 => *r.pick(&TOO_LONG),
        1..=4 => LONGEST_BY_INVERSIONS,
        _ => r.below(LONGEST_BY_INVERSIONS + 2),
    }
}

impl Lent {
    /// As much as is needed.
    pub fn just(scheme: &Scheme, n: usize) -> Lent {
        Lent { n, cells: need(scheme, n) as usize, results: figures(n) }
    }

    /// A random length, at most so long that no more than `most` cells are needed; table and
    /// results as long as they have to be, or one less, none, or some more.
    pub fn random(r: &mut Random, scheme: &Scheme, most: u64) -> Lent {
        let mut n = length(r);
        if n > LONGEST_BY_INVERSIONS {
            return Lent { n, ..Lent::any(r) };
        }
        while n > 0 && need(scheme, n) > most {
            n -= 1;
        }
        let just = Lent::just(scheme, n);
        let plain = counting::need(scheme, n) as usize;
        let table = just.cells;
        let cells = *r.pick(&[table, table, table, table, table, table + 1, table + 9, table - 1, plain, 0]);
        let full = just.results;
        let results = *r.pick(&[full, full, full, full, full + 1, full + 9, full - 1, full - 1, 0]);
        Lent { n, cells, results }
    }

    /// A length, half of the time one that is not counted, and memory that may serve or not,
    /// whatever the set and the scheme are.
    pub fn any(r: &mut Random) -> Lent {
        let n = if r.one_in(2) { *r.pick(&TOO_LONG) } else { length(r) };
        Lent { n, cells: *r.pick(&[0, 1, 52, 572, 2_000]), results: *r.pick(&[0, 1, 11, 67, 80]) }
    }
}
