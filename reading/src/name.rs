//! Names by number: the 40 built-in ones, then the table's.

#[path = "../../aura-judge/src/spellings.rs"]
mod spellings;

pub use spellings::BUILT_IN;

/// In owner, superclass and package fields, and in a question's header: none.
pub const NONE: u16 = 65_535;

pub const PLUS: u16 = 6;

/// The number of a built-in name, for generators and tests.
pub fn built_in(name: &str) -> u16 {
    match BUILT_IN.iter().position(|n| *n == name) {
        Some(i) => i as u16,
        None => panic!("{} is no built-in name", name),
    }
}
