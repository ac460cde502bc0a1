//! The witness of refusal 11: a permutation that is lost and a copy in it, on a lent page.

use crate::judging::judge_showing;
use crate::model::*;
use crate::notation::{read_patterns, read_scheme};
use crate::word::contains;

#[derive(Clone, Copy, Debug, PartialEq, Eq)]
pub struct Witness {
    pub permutation: Shown,
    pub copy: Positions,
}

impl Witness {
    /// The witness that a lost permutation makes: its copy is the first one of the earliest pattern
    /// that has one, in the set as it is given.
    pub fn of(patterns: &[Pattern], permutation: Shown) -> Witness {
        let mut copies = patterns.iter().filter_map(|p| contains(p.items(), permutation.items()));
        let copy = copies.next().expect("what is lost contains a pattern");
        Witness { permutation, copy }
    }

    /// The length of the permutation, its entries and zeros up to 16 bytes; then the length of the
    /// copy, its positions and zeros up to 16 bytes.
    pub fn bytes(&self) -> [u8; WITNESS] {
        let mut bytes = [0; WITNESS];
        let (first, second) = bytes.split_at_mut(WITNESS / 2);
        for (half, word) in [(first, self.permutation.items()), (second, self.copy.items())] {
            half[0] = word.len() as u8;
            half[1..=word.len()].copy_from_slice(word);
        }
        bytes
    }
}

/// Judges two texts: the number of compared cells, or a refusal. A page under 32 bytes is refused
/// before all else. With refusal 11 the first 32 bytes of the page receive the witness; all other
/// bytes, and all bytes without it, are untouched.
pub fn judge_texts_on_page(patterns: &[u8], scheme: &[u8], page: &mut [u8]) -> Result<usize, Refusal> {
    if page.len() < WITNESS {
        return Err(Refusal(SHORT_PAGE, 0));
    }
    let patterns = read_patterns(patterns)?;
    let scheme = read_scheme(scheme)?;
    let (verdict, lost) = judge_showing(&patterns, &scheme);
    if let Some(permutation) = lost {
        let witness = Witness::of(patterns.items(), permutation);
        page[..WITNESS].copy_from_slice(&witness.bytes());
    }
    verdict
}
