//! Writes generated questions with their numbers, as the crate `question_replay` reads them.
//!
//! questions --seed S --count N --longest L --stdin FILE --stdout FILE
//!
//! Of each profile below N cases are made, and those with an accepted table and a question of at most L bytes are
//! taken. The first file has one question after another: the number of the table's names and the question's length
//! (2 bytes each, low byte first), and the question. The second has their numbers (0, or 8 to 11), a line each.

use oracle::args::Args;
use reading::gen::{self, Profile};
use reading::name::BUILT_IN;
use reading::words::question::question_number;
use reading::words::table::{name_count, table_number};
use std::io::{BufWriter, Write};

const PROFILES: [Profile; 6] =
    [Profile::Damaged, Profile::Boundary, Profile::Random, Profile::Rich, Profile::Calls, Profile::Arrays];

fn main() -> std::io::Result<()> {
    let Args { seed, count, longest, stdin, stdout } = Args::of_process("questions");
    let mut questions = BufWriter::new(std::fs::File::create(&stdin)?);
    let mut numbers = BufWriter::new(std::fs::File::create(&stdout)?);
    let mut written = [0u64; 12];
    for profile in PROFILES {
        for index in 0..count {
            let case = gen::case(profile, seed, index);
            if case.question.len() as u64 > longest || table_number(&case.table) != 0 {
                continue;
            }
            let names = (name_count(&case.table) - BUILT_IN.len()) as u16;
            let number = question_number(&case.table, &case.question);
            questions.write_all(&names.to_le_bytes())?;
            questions.write_all(&(case.question.len() as u16).to_le_bytes())?;
            questions.write_all(&case.question)?;
            writeln!(numbers, "{}", number)?;
            written[number as usize] += 1;
        }
    }
    questions.flush()?;
    numbers.flush()?;
    eprintln!(
        "questions: {} accepted, 8: {}, 9: {}, 10: {}, 11: {}",
        written[0], written[8], written[9], written[10], written[11]
    );
    Ok(())
}
