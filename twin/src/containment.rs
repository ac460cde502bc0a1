//! The public operation `contains`: one pattern and one permutation as lists of numbers.

use crate::model::*;
use crate::word::{contains, is_permutation};

/// The positions of the lexicographically first copy, None where there is none, or a refusal: that
/// of the pattern first, then that of the permutation.
pub fn first_copy(pattern: &[u8], permutation: &[u8]) -> Result<Option<Positions>, Refusal> {
    if pattern.len() > PATTERN_LENGTH {
        return Err(Refusal(OVERSIZE, 0));
    }
    if pattern.is_empty() || !is_permutation(pattern) {
        return Err(Refusal(NO_PERMUTATION, 0));
    }
    if permutation.len() > LONGEST {
        return Err(Refusal(OVERSIZE, 0));
    }
    if !is_permutation(permutation) {
        return Err(Refusal(NO_PERMUTATION, 0));
    }
    Ok(contains(pattern, permutation))
}

/// The number of positions of the first copy, 0 where there is none, or a refusal. The positions
/// stand at the front of the page, one byte each, as far as the page goes; all other bytes of it
/// are untouched.
pub fn copy_of(pattern: &[u8], permutation: &[u8], page: &mut [u8]) -> Result<usize, Refusal> {
    let Some(positions) = first_copy(pattern, permutation)? else { return Ok(0) };
    for (byte, &position) in page.iter_mut().zip(positions.items()) {
        *byte = position;
    }
    Ok(positions.count())
}
