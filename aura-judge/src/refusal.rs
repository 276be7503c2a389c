//! Refusals of the judge and of what writes, and by whose doing they are.

use std::fmt;

/// Whose doing a refusal is.
#[derive(Debug, Clone, Copy, PartialEq, Eq, Hash)]
pub enum Doer {
    TableWriter,
    ScriptAuthor,
    Caller,
    Judge,
}

impl fmt::Display for Doer {
    fn fmt(&self, f: &mut fmt::Formatter<'_>) -> fmt::Result {
        f.write_str(match self {
            Doer::TableWriter => "the table's writer",
            Doer::ScriptAuthor => "the script's author",
            Doer::Caller => "the caller",
            Doer::Judge => "the judge",
        })
    }
}

/// Why nothing was judged or written: the numbers 1 to 15 of `docs/FORMAT.md`, "Refusals". The judge has 1 to 13, and
/// [`load`](crate::load) has 14 and 15.
///
/// ```
/// use aura_judge::{Doer, Refusal};
///
/// let refusal = Refusal::RecordKindFalls;
/// assert_eq!(refusal.number(), 3);
/// assert_eq!(refusal.by(), Doer::TableWriter);
/// assert_eq!(refusal.to_string(), "refused (3, the table's writer): kind falls");
/// ```
#[derive(Debug, Clone, Copy, PartialEq, Eq, Hash)]
pub enum Refusal {
    /// 1: the table has over 60,000 bytes.
    TableTooLong,
    /// 2: a record of the table is malformed or cut.
    MalformedRecord,
    /// 3: a record's kind is below that of the record before it.
    RecordKindFalls,
    /// 4: a record uses an id that no name before it has.
    UndefinedTableId,
    /// 5: a key (name bytes; class; owner and name; a parameter's name within one function) stands a second time.
    KeyRepeated,
    /// 6: a superclass or interface has a record, but not an earlier one.
    ParentLate,
    /// 7: Error stands in a type of the table, or a type has no end within 192 bytes.
    TableType,
    /// 8: the question has over 16,384 bytes, is malformed or cut, or has bytes behind the tree.
    MalformedQuestion,
    /// 9: the question has a 65th node.
    TooManyNodes,
    /// 10: the question uses an id that no name has.
    UndefinedQuestionId,
    /// 11: a leaf's type has no end in 192 bytes.
    LeafTypeWithoutEnd,
    /// 12: 5 × diagnostics exceeds the lent buffer.
    BufferTooShort,
    /// 13: the root's type has over 256 bytes.
    RootTypeTooLong,
    /// 14: the node count is not 1 to 64.
    NodeCount,
    /// 15: the output buffer has fewer bytes than the output.
    OutputBufferTooShort,
}

impl Refusal {
    /// All of them, by number from 1.
    pub const ALL: [Refusal; 15] = [
        Refusal::TableTooLong,
        Refusal::MalformedRecord,
        Refusal::RecordKindFalls,
        Refusal::UndefinedTableId,
        Refusal::KeyRepeated,
        Refusal::ParentLate,
        Refusal::TableType,
        Refusal::MalformedQuestion,
        Refusal::TooManyNodes,
        Refusal::UndefinedQuestionId,
        Refusal::LeafTypeWithoutEnd,
        Refusal::BufferTooShort,
        Refusal::RootTypeTooLong,
        Refusal::NodeCount,
        Refusal::OutputBufferTooShort,
    ];

    /// The refusal with this number; none for 0 and for 16 upward.
    pub fn from_number(number: u8) -> Option<Refusal> {
        Refusal::ALL.get((number as usize).checked_sub(1)?).copied()
    }

    /// Its number, 1 to 15.
    pub fn number(self) -> u8 {
        self as u8 + 1
    }

    /// Whose doing it is.
    pub fn by(self) -> Doer {
        match self.number() {
            1..=7 => Doer::TableWriter,
            8..=11 => Doer::ScriptAuthor,
            13 => Doer::Judge,
            _ => Doer::Caller,
        }
    }

    /// What is refused, in words.
    pub fn words(self) -> &'static str {
        match self {
            Refusal::TableTooLong => "over 60,000 bytes",
            Refusal::MalformedRecord => "malformed or cut record",
            Refusal::RecordKindFalls => "kind falls",
            Refusal::UndefinedTableId => "undefined id",
            Refusal::KeyRepeated => "key repeated",
            Refusal::ParentLate => "a superclass or interface with a record, but not an earlier one",
            Refusal::TableType => "Error in a type, or no end within 192 bytes",
            Refusal::MalformedQuestion => "over 16,384 bytes, malformed, cut, or bytes behind the tree",
            Refusal::TooManyNodes => "a 65th node",
            Refusal::UndefinedQuestionId => "undefined id",
            Refusal::LeafTypeWithoutEnd => "leaf type without end in 192 bytes",
            Refusal::BufferTooShort => "5 × diagnostics exceeds the buffer",
            Refusal::RootTypeTooLong => "root type over 256 bytes",
            Refusal::NodeCount => "a node count outside 1 to 64",
            Refusal::OutputBufferTooShort => "an output buffer that is too short",
        }
    }
}

impl fmt::Display for Refusal {
    fn fmt(&self, f: &mut fmt::Formatter<'_>) -> fmt::Result {
        write!(f, "refused ({}, {}): {}", self.number(), self.by(), self.words())
    }
}

impl std::error::Error for Refusal {}
