//! Reads a table and a question from standard input and prints the Rust's answer.

use std::io::{Read, Write};

fn main() -> std::io::Result<()> {
    let mut input = Vec::new();
    std::io::stdin().read_to_end(&mut input)?;
    std::io::stdout().write_all(oracle::program(&input).as_bytes())
}
