//! The listing program of document 01 by the second program: lines from standard input, answers to standard output.

use std::io::{Read, Write, stdin, stdout};

fn main() -> std::io::Result<()> {
    let mut input = Vec::new();
    stdin().read_to_end(&mut input)?;
    stdout().write_all(second::listing::listing(&input).as_bytes())
}
