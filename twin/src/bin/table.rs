//! The table program of the second implementation: three lines on standard input, a b-file or a
//! refusal on standard output.

use std::io::{stdin, stdout, Read, Write};

fn main() -> std::io::Result<()> {
    let mut input = vec![];
    stdin().read_to_end(&mut input)?;
    stdout().write_all(&twin::table::table(&input))
}
