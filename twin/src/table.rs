//! The table program, from the bytes of its input to the bytes of its output.

use crate::counting::{counts, need};
use crate::judging::judge;
use crate::model::*;
use crate::notation::{read_patterns, read_scheme};

/// The cells that the program holds.
pub const CELLS: usize = 4_096;

/// The b-file, or the line of a refusal.
pub fn table(input: &[u8]) -> Vec<u8> {
    match tabled(input) {
        Ok(counts) => {
            let line = |(n, count): (usize, &u64)| format!("{n} {count}\n");
            counts.iter().enumerate().map(line).collect::<String>().into_bytes()
        }
        Err(Refusal(number, index)) => format!("refused {number} {index}\n").into_bytes(),
    }
}

fn tabled(input: &[u8]) -> Result<Vec<u64>, Refusal> {
    let misspelt = Refusal(MISSPELT, 0);
    let [set, scheme, last] = lines(input).ok_or(misspelt)?;
    let patterns = read_patterns(set)?;
    let scheme = read_scheme(scheme)?;
    judge(&patterns, &scheme)?;
    let n = match last {
        [d @ b'0'..=b'9'] => (d - b'0') as usize,
        [t @ b'1'..=b'9', d @ b'0'..=b'9'] => 10 * (t - b'0') as usize + (d - b'0') as usize,
        _ => return Err(misspelt),
    };
    if n > LONGEST {
        return Err(Refusal(OVERSIZE, 0));
    }
    if need(&scheme, n) > CELLS as u64 {
        return Err(Refusal(SHORT_TABLE, 0));
    }
    Ok(counts(&patterns, &scheme, n, &mut vec![0; CELLS]))
}

/// The three lines, or None for a missing or a fourth one.
fn lines(input: &[u8]) -> Option<[&[u8]; 3]> {
    let (set, rest) = line(input)?;
    let (scheme, rest) = line(rest)?;
    let (last, rest) = line(rest).unwrap_or((rest, &[]));
    (!last.is_empty() && rest.is_empty()).then_some([set, scheme, last])
}

/// The first line without its end, and what follows it.
fn line(input: &[u8]) -> Option<(&[u8], &[u8])> {
    let end = input.iter().position(|b| *b == b'\n')?;
    Some((&input[..end], &input[end + 1..]))
}
