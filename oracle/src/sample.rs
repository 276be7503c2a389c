//! Stored answers: which cases, and their text and binary forms.

use crate::answer::{printed_by, Source};
use reading::bytes::Bytes;
use reading::examples;
use reading::gen::{self, Profile};
use reading::hex::hex;

/// A case to be stored.
#[derive(Debug, Clone, PartialEq, Eq)]
pub struct Stored {
    pub name: String,
    pub table: Bytes,
    pub question: Bytes,
}

/// The seed of the generated part.
pub const SEED: u64 = 2026;

/// Per profile: how many cases, the longest input taken, and the step through the indices (a sweep
/// is too long to be stored whole).
const GENERATED: [(Profile, usize, usize, u64); 24] = [
    (Profile::Rich, 180, 520, 1),
    (Profile::Calls, 350, 440, 1),
    (Profile::Wide, 300, 400, 1),
    (Profile::Members, 130, 520, 1),
    (Profile::Operators, 110, 520, 1),
    (Profile::Outside, 68, 900, 1),
    (Profile::Damaged, 250, 420, 1),
    (Profile::Boundary, 260, 500, 1),
    (Profile::Random, 200, 300, 1),
    (Profile::Short, 60, 900, 3_301),
    (Profile::OneNode, 120, 900, 3),
    (Profile::Pairs, 300, 900, 419),
    (Profile::Singles, 200, 900, 41),
    (Profile::Assign, 200, 900, 59),
    (Profile::Flips, 200, 900, 263),
    (Profile::Typed, 180, 480, 1),
    (Profile::Classes, 160, 480, 1),
    (Profile::Below, 100, 900, 1_049),
    (Profile::Names, 120, 900, 467),
    (Profile::Arguments, 200, 480, 1),
    (Profile::OwnParameters, 160, 900, 1_327),
    (Profile::Arrays, 200, 420, 1),
    (Profile::ArraySizes, 200, 900, 577),
    (Profile::Interfaces, 200, 900, 577),
];

/// The cases in order: the named examples, then the generated ones.
pub fn stored() -> Vec<Stored> {
    let mut all: Vec<Stored> = Vec::new();
    for e in examples::all() {
        all.push(Stored { name: e.name, table: e.table, question: e.question });
    }
    for (profile, count, longest, step) in GENERATED {
        let mut index = 0;
        let mut taken = 0;
        while taken < count {
            let case = gen::case(profile, SEED, index);
            if case.table.len() + case.question.len() <= longest {
                let name = format!("{}.{}", profile.name(), index);
                all.push(Stored { name, table: case.table, question: case.question });
                taken += 1;
            }
            index += step;
        }
    }
    all
}

/// One line: name, table, question, then the printed answer with `/` for its inner line breaks.
pub fn text_line(name: &str, table: &[u8], question: &[u8], printed: &str) -> String {
    format!("{} {} {} {}\n", name, hex(table), hex(question), printed.trim_end().replace('\n', "/"))
}

/// One case as the binary form has it: table, question and printed answer, each behind a
/// 2-byte length, low byte first. None where a length does not fit.
pub fn binary_case(table: &[u8], question: &[u8], printed: &str) -> Option<Bytes> {
    let mut bytes = Vec::new();
    for part in [table, question, printed.as_bytes()] {
        let len = u16::try_from(part.len()).ok()?;
        bytes.extend_from_slice(&len.to_le_bytes());
        bytes.extend_from_slice(part);
    }
    Some(bytes)
}

/// The files, from the repository's root. The program `replay` is run on the binary form, and prints the third.
pub const TEXT: &str = "samples/answers.txt";
pub const BINARY: &str = "crates/replay/stdin";
pub const REPLAYED: &str = "crates/replay/stdout";

/// What `replay` prints where every case of the text agrees.
pub fn replayed(text: &str) -> String {
    format!("{} cases agree\n", text.lines().filter(|l| !l.starts_with('#')).count())
}

/// The contents of the first two: what the Rust answers, then what the second reading does outside its domain.
pub fn files() -> (String, Bytes) {
    let mut texts = [String::from(BY_RUST), String::from(BY_WORDS)];
    let mut binaries = [Vec::new(), Vec::new()];
    for case in stored() {
        let (source, printed) = printed_by(&case.table, &case.question);
        let part = (source == Source::Words) as usize;
        texts[part].push_str(&text_line(&case.name, &case.table, &case.question, &printed));
        match binary_case(&case.table, &case.question, &printed) {
            Some(bytes) => binaries[part].extend(bytes),
            None => panic!("{} is too long to be stored", case.name),
        }
    }
    (HEADER.to_string() + &texts.concat(), binaries.concat())
}

const HEADER: &str = "\
# Stored answers of the oracle. One case per line: name, table, question, then what the program prints, with / for
# its inner line breaks. Bytes are in hex; - is none; xx*N stands for N times xx; . parts such runs.
# Made by: cargo run --release --bin samples (in oracle/). See oracle/README.md.
";

/// The lines that begin the two parts.
pub const BY_RUST: &str =
    "# The answers of the Rust's own methods. Refusals, 12 among them, are the second reading's.\n";
pub const BY_WORDS: &str = "# Outside the Rust's domain: the answers of the second reading.\n";
