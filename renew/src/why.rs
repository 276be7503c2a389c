//! Why a table is not written anew.

use std::fmt;

/// Why a table, or an input, is not written anew.
#[derive(Debug, Clone, PartialEq, Eq)]
pub enum NotRenewed {
    NotOlder(NotOlder),
    /// The table has class records, and both forms accept it.
    BothForms,
    /// The input has fewer than 2 bytes, or fewer behind them than the length says.
    Cut,
    /// The input's table would have this many bytes, which the length in 2 bytes cannot say.
    Length(usize),
}

/// Why some bytes are no table of the older form: the first fault of theirs that the judge found before order 6.
#[derive(Debug, Clone, PartialEq, Eq)]
pub struct NotOlder {
    /// The number that it gave, 1 to 7.
    pub number: u8,
    /// The faulty record; none where the table is too long.
    pub place: Option<Place>,
    /// Whether they are a table that today's form accepts.
    pub is_of_today: bool,
}

/// Where a record stands.
#[derive(Debug, Clone, Copy, PartialEq, Eq)]
pub struct Place {
    /// How many records stand before it.
    pub record: usize,
    /// How many bytes of the table stand before it.
    pub byte: usize,
}

impl NotOlder {
    /// Document 01's words for the number.
    pub fn words(&self) -> &'static str {
        match self.number {
            1 => "over 60,000 bytes",
            2 => "malformed or cut record",
            3 => "kind falls",
            4 => "undefined id",
            5 => "key repeated",
            6 => "a superclass with a record, but not an earlier one",
            _ => "Error in a type, or no end within 192 bytes",
        }
    }
}

impl fmt::Display for NotOlder {
    fn fmt(&self, f: &mut fmt::Formatter<'_>) -> fmt::Result {
        write!(f, "no table of the older form: ")?;
        if let Some(place) = self.place {
            write!(f, "record {} at byte {} (counted from 0): ", place.record, place.byte)?;
        }
        write!(f, "{}, {}", self.number, self.words())?;
        if self.is_of_today {
            write!(f, "; it has today's form already")?;
        }
        Ok(())
    }
}

impl fmt::Display for NotRenewed {
    fn fmt(&self, f: &mut fmt::Formatter<'_>) -> fmt::Result {
        match self {
            NotRenewed::NotOlder(why) => why.fmt(f),
            NotRenewed::BothForms => write!(f, "a table of both forms: it can be an older one and one of today"),
            NotRenewed::Cut => write!(f, "no input: the bytes end before the table does"),
            NotRenewed::Length(bytes) => {
                write!(f, "the table would have {bytes} bytes, and the input's length field has room for 65,535")
            }
        }
    }
}

impl std::error::Error for NotOlder {}
impl std::error::Error for NotRenewed {}
