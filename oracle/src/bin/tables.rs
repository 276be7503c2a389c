//! Writes generated tables with their numbers, as the crate `symbol_replay` reads them.
//!
//! tables --seed S --count N --longest L --stdin FILE --stdout FILE
//!
//! Of each profile below N cases are made, and those with a table of at most L bytes are taken, each table once. The
//! first file has one table after another: its length (2 bytes, low byte first) and the table. The second has their
//! numbers (0 to 7), a line each.

use oracle::args::Args;
use reading::gen::{self, Profile};
use reading::words::table::table_number;
use std::collections::HashSet;
use std::io::{BufWriter, Write};

const PROFILES: [Profile; 6] =
    [Profile::Damaged, Profile::Boundary, Profile::Random, Profile::Rich, Profile::Operators, Profile::Arrays];

fn main() -> std::io::Result<()> {
    let Args { seed, count, longest, stdin, stdout } = Args::of_process("tables");
    let mut tables = BufWriter::new(std::fs::File::create(&stdin)?);
    let mut numbers = BufWriter::new(std::fs::File::create(&stdout)?);
    let mut written = [0u64; 8];
    let mut seen = HashSet::new();
    for profile in PROFILES {
        for index in 0..count {
            let table = gen::case(profile, seed, index).table;
            if table.len() as u64 > longest || !seen.insert(table.clone()) {
                continue;
            }
            let number = table_number(&table);
            tables.write_all(&(table.len() as u16).to_le_bytes())?;
            tables.write_all(&table)?;
            writeln!(numbers, "{}", number)?;
            written[number as usize] += 1;
        }
    }
    tables.flush()?;
    numbers.flush()?;
    eprintln!("tables: {} accepted, numbers 1 to 7: {:?}", written[0], &written[1..]);
    Ok(())
}
