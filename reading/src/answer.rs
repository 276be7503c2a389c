//! An answer and what a yardstick says, as data; the program's input and output.

use std::fmt::Write;

/// The program's diagnostics buffer.
pub const BUFFER: usize = 65_535;

#[derive(Debug, Clone, PartialEq, Eq)]
pub struct Answer {
    pub number: u8,
    pub pass: u8,
    pub ty: [u8; 256],
    pub len: usize,
    pub count: usize,
}

impl Answer {
    pub fn refused(number: u8) -> Answer {
        Answer { number, pass: 0, ty: [0; 256], len: 0, count: 0 }
    }
}

#[derive(Debug, Clone, Copy, PartialEq, Eq, Hash, PartialOrd, Ord)]
pub struct Diagnostic {
    pub kind: u8,
    pub node: u16,
    pub number: u16,
}

impl Diagnostic {
    pub fn bytes(&self) -> [u8; 5] {
        let node = self.node.to_le_bytes();
        let number = self.number.to_le_bytes();
        [self.kind, node[0], node[1], number[0], number[1]]
    }
}

/// The answer of a writing part: 0 and the output's length, or the number of a refusal and 0.
#[derive(Debug, Clone, Copy, PartialEq, Eq)]
pub struct Written {
    pub number: u8,
    pub len: usize,
}

/// What a yardstick says of a table and a question, whatever buffer is lent.
#[derive(Debug, Clone, PartialEq, Eq)]
pub enum Said {
    /// One of the numbers 1 to 11.
    Refused(u8),
    Judged {
        ty: Vec<u8>,
        passed: bool,
        diagnostics: Vec<Diagnostic>,
    },
}

/// What a judge is compared with.
#[derive(Debug, Clone, Copy)]
pub struct Yardstick {
    pub name: &'static str,
    /// What it says of a table and a question; none where it is no yardstick.
    pub says: fn(&[u8], &[u8]) -> Option<Said>,
    /// The answer that this is under a lent buffer, which is written whole.
    pub answer: fn(&Said, &mut [u8]) -> Answer,
    /// The load for a start number and a node count in a lent buffer, which is written whole; none where it is no
    /// yardstick.
    pub load: fn(u32, usize, &mut [u8]) -> Option<Written>,
}

/// The table and the question of the program's input; none where it ends before its table does.
pub fn whole_input(input: &[u8]) -> Option<(&[u8], &[u8])> {
    let (length, rest) = input.split_first_chunk()?;
    rest.split_at_checked(u16::from_le_bytes(*length) as usize)
}

/// The table and the question that the program judges: "with fewer than 2 bytes, or fewer table bytes than the length
/// says, it judges both as empty".
pub fn split_input(input: &[u8]) -> (&[u8], &[u8]) {
    whole_input(input).unwrap_or((&[], &[]))
}

/// The program's input; none where the table's length does not fit in 2 bytes.
pub fn join_input(table: &[u8], question: &[u8]) -> Option<Vec<u8>> {
    let length = u16::try_from(table.len()).ok()?;
    Some([&length.to_le_bytes(), table, question].concat())
}

/// What the program prints of an answer and its buffer.
pub fn print_answer(answer: &Answer, buffer: &[u8]) -> String {
    let mut out = format!("{} {} {} ", answer.number, answer.pass, answer.len);
    if answer.len == 0 {
        out.push('-');
    }
    for byte in &answer.ty[..answer.len] {
        let _ = write!(out, "{:02x}", byte);
    }
    let _ = writeln!(out, " {}", answer.count);
    for d in buffer.chunks(5).take(answer.count) {
        let _ = writeln!(out, "{} {} {}", d[0], u16::from_le_bytes([d[1], d[2]]), u16::from_le_bytes([d[3], d[4]]));
    }
    out
}
