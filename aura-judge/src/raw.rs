//! The library's functions on bytes, for callers who want them as they are: nothing is allocated, and every byte that
//! the library writes can be seen. `include/aura_judge.h` declares the same for C.
//!
//! ```
//! use aura_judge::raw::{judge, Fields, ANSWER_SIZE};
//!
//! // `!!` on an Int: one diagnostic.
//! let question = [0xff, 0xff, 0xff, 0xff, 0, 2, 6, 0, 0];
//! let (mut diagnostics, mut answer) = ([0; 10], [0; ANSWER_SIZE]);
//! assert_eq!(judge(&[], &question, &mut diagnostics, &mut answer), 0);
//! let fields = Fields::of(&answer);
//! assert_eq!((fields.number, fields.pass, fields.len, fields.count), (0, 0, 1, 1));
//! assert_eq!(diagnostics, [13, 0, 0, 0, 0, 0, 0, 0, 0, 0]);
//! ```
//!
//! ```
//! use aura_judge::raw::load;
//!
//! // The test load of start number 0 and two nodes: a Minus on a Float.
//! let (mut out, mut len) = ([7; 10], 0);
//! assert_eq!(load(0, 2, &mut out, &mut len), 0);
//! assert_eq!((out, len), ([255, 255, 255, 255, 0, 2, 0, 0, 4, 0], 9));
//! ```

extern "C" {
    fn aura_judge_answer_size() -> usize;
    fn aura_judge(
        table: *const u8,
        table_length: usize,
        question: *const u8,
        question_length: usize,
        diagnostics: *mut u8,
        diagnostics_length: usize,
        answer: *mut u8,
        answer_length: usize,
    ) -> u8;
    fn aura_load(start: u32, nodes: usize, out: *mut u8, out_length: usize, len: *mut usize) -> u8;
}

/// How many bytes an answer has.
pub const ANSWER_SIZE: usize = 268;

/// What [`judge`] answers where the answer slice is shorter than [`ANSWER_SIZE`]: no refusal's number.
pub const TOO_SHORT: u8 = 255;

/// How many bytes a diagnostic has.
pub const DIAGNOSTIC_SIZE: usize = 5;

/// How many bytes the longest question of [`load`] has: a header of 5, and 2 for each of 64 nodes.
pub const LOAD_LONGEST: usize = 133;

/// Where the fields of an answer stand. Numbers are low byte first.
pub mod field {
    use std::ops::Range;

    pub const NUMBER: usize = 0;
    pub const PASS: usize = 1;
    pub const LEN: Range<usize> = 2..4;
    pub const COUNT: Range<usize> = 4..12;
    pub const TYPE: Range<usize> = 12..268;
}

/// The answer's size as the library says it.
pub fn answer_size() -> usize {
    // SAFETY: the function takes nothing and touches no memory of the caller's.
    unsafe { aura_judge_answer_size() }
}

/// Judges a question under a table. Every byte of both written slices is written: the diagnostics and the answer, each
/// with zeros behind it. Answers the answer's number, or [`TOO_SHORT`] with both slices zero.
pub fn judge(table: &[u8], question: &[u8], diagnostics: &mut [u8], answer: &mut [u8]) -> u8 {
    // SAFETY: each pointer comes with the length of its slice. The written slices are borrowed mutably, so no two of
    // the four overlap where one is written. The function keeps no pointer.
    unsafe {
        aura_judge(
            table.as_ptr(),
            table.len(),
            question.as_ptr(),
            question.len(),
            diagnostics.as_mut_ptr(),
            diagnostics.len(),
            answer.as_mut_ptr(),
            answer.len(),
        )
    }
}

/// Writes the test load of a start number and a node count. Every byte of `out` is written: the question, with zeros
/// behind it. Answers 0, with the question's length in `len`; or the number of a refusal, with 0 there and zeros alone.
pub fn load(start: u32, nodes: usize, out: &mut [u8], len: &mut usize) -> u8 {
    // SAFETY: the pointer comes with the length of its slice. Both are borrowed mutably, so they do not overlap. The
    // function keeps no pointer.
    unsafe { aura_load(start, nodes, out.as_mut_ptr(), out.len(), len) }
}

/// The fields of an answer of [`ANSWER_SIZE`] bytes.
#[derive(Debug, Clone, Copy, PartialEq, Eq)]
pub struct Fields<'a> {
    pub number: u8,
    pub pass: u8,
    pub len: u16,
    pub count: u64,
    /// All 256 bytes; the type is the first `len`.
    pub ty: &'a [u8; 256],
}

impl<'a> Fields<'a> {
    pub fn of(answer: &'a [u8; ANSWER_SIZE]) -> Fields<'a> {
        let mut len = [0; 2];
        len.copy_from_slice(&answer[field::LEN]);
        let mut count = [0; 8];
        count.copy_from_slice(&answer[field::COUNT]);
        Fields {
            number: answer[field::NUMBER],
            pass: answer[field::PASS],
            len: u16::from_le_bytes(len),
            count: u64::from_le_bytes(count),
            ty: answer[field::TYPE].try_into().expect("the type has 256 bytes"),
        }
    }
}
