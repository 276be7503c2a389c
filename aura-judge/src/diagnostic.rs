//! What was reported, in order.

use crate::raw::DIAGNOSTIC_SIZE;
use std::fmt;

macro_rules! kinds {
    ($($number:literal $kind:ident $words:literal,)*) => {
        /// What a diagnostic reports: the kinds 1 to 23 of `docs/FORMAT.md`, "Kinds of diagnostics", with its words.
        #[derive(Debug, Clone, Copy, PartialEq, Eq, Hash)]
        #[repr(u8)]
        pub enum DiagnosticKind {
            $(#[doc = concat!(stringify!($number), ": ", $words)] $kind = $number,)*
        }

        impl DiagnosticKind {
            /// All of them, by number from 1.
            pub const ALL: [DiagnosticKind; 23] = [$(DiagnosticKind::$kind,)*];

            /// The words of `docs/FORMAT.md`.
            pub fn words(self) -> &'static str {
                match self {
                    $(DiagnosticKind::$kind => $words,)*
                }
            }
        }
    };
}

kinds! {
    1 NullableOperands "nullable operands",
    2 Plus "plus",
    3 Numeric "numeric",
    4 UnrelatedComparison "unrelated comparison (warning)",
    5 NotComparable "not comparable",
    6 Logical "logical",
    7 Bitwise "bitwise",
    8 NullableUnary "nullable unary",
    9 Minus "minus",
    10 Not "not",
    11 Step "step",
    12 Dereference "dereference",
    13 NotNull "not-null",
    14 Suspend "suspend",
    15 ArgumentCount "argument count",
    16 UnknownName "unknown name",
    17 Mismatch "mismatch",
    18 NoMatch "no match",
    19 Tie "tie",
    20 Access "access",
    21 NullableMember "nullable member",
    22 Unresolved "unresolved",
    23 NoMembers "no members",
}

impl DiagnosticKind {
    /// The kind with this number; none for 0 and for 24 upward.
    pub fn from_number(number: u8) -> Option<DiagnosticKind> {
        DiagnosticKind::ALL.get((number as usize).checked_sub(1)?).copied()
    }

    /// Its number, 1 to 23.
    pub fn number(self) -> u8 {
        self as u8
    }

    /// Whether it is a warning. The pass mark is 0 with a warning too.
    pub fn is_warning(self) -> bool {
        self == DiagnosticKind::UnrelatedComparison
    }
}

impl fmt::Display for DiagnosticKind {
    fn fmt(&self, f: &mut fmt::Formatter<'_>) -> fmt::Result {
        f.write_str(self.words())
    }
}

/// One report.
#[derive(Debug, Clone, Copy, PartialEq, Eq, Hash)]
pub struct Diagnostic {
    pub kind: DiagnosticKind,
    /// The node it stands at; of an unknown name or a mismatch the argument's.
    pub node: u16,
    /// 0 where none is given: of [`Logical`](DiagnosticKind::Logical) 1 for the left side and 2 for the right, of
    /// [`ArgumentCount`](DiagnosticKind::ArgumentCount) the arguments, of [`UnknownName`](DiagnosticKind::UnknownName)
    /// and [`Mismatch`](DiagnosticKind::Mismatch) the argument's position from 1 among all arguments, of
    /// [`Tie`](DiagnosticKind::Tie) how many, of [`Access`](DiagnosticKind::Access) the visibility.
    pub number: u16,
}

impl Diagnostic {
    /// The diagnostic of a record; none where its kind is none of 1 to 23.
    pub fn from_bytes(bytes: [u8; DIAGNOSTIC_SIZE]) -> Option<Diagnostic> {
        Some(Diagnostic {
            kind: DiagnosticKind::from_number(bytes[0])?,
            node: u16::from_le_bytes([bytes[1], bytes[2]]),
            number: u16::from_le_bytes([bytes[3], bytes[4]]),
        })
    }
}

/// `node 3: tie (2)`, or `node 3: minus` where the number is 0.
impl fmt::Display for Diagnostic {
    fn fmt(&self, f: &mut fmt::Formatter<'_>) -> fmt::Result {
        write!(f, "node {}: {}", self.node, self.kind)?;
        match self.number {
            0 => Ok(()),
            number => write!(f, " ({})", number),
        }
    }
}

/// The diagnostics of an answer, in order.
#[derive(Debug, Clone)]
pub struct Diagnostics<'a> {
    records: std::slice::ChunksExact<'a, u8>,
}

impl<'a> Diagnostics<'a> {
    pub(crate) fn of(bytes: &'a [u8]) -> Diagnostics<'a> {
        Diagnostics { records: bytes.chunks_exact(DIAGNOSTIC_SIZE) }
    }
}

impl Iterator for Diagnostics<'_> {
    type Item = Diagnostic;

    fn next(&mut self) -> Option<Diagnostic> {
        let record = self.records.next()?.try_into().expect("a record has 5 bytes");
        Some(Diagnostic::from_bytes(record).expect("the library writes kinds 1 to 23"))
    }

    fn size_hint(&self) -> (usize, Option<usize>) {
        self.records.size_hint()
    }
}

impl ExactSizeIterator for Diagnostics<'_> {}
