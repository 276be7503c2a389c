//! Wrong versions of the words, each changed in one line (edits/): what a comparison must find.

#![allow(dead_code, unused_imports)]

// The copies name these by `crate`.
use reading::{answer, name};

/// A wrong version, and what is wrong with it.
pub struct Wrong {
    pub what: &'static str,
    pub yardstick: answer::Yardstick,
}

/// A wrong version of the condition of document 02's order 7.
pub struct WrongCondition {
    pub name: &'static str,
    pub what: &'static str,
    /// Whether it holds of two tables and a question.
    pub holds: fn(&[u8], &[u8], &[u8]) -> bool,
}

include!(concat!(env!("OUT_DIR"), "/wrong.rs"));
