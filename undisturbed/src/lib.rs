//! Whether one function more in a library can change what scripts get: document 02's order 7, asked of two tables and
//! any number of questions. The condition is that of the second reading, `reading::words::undisturbed`.

pub mod args;
mod library;
mod questions;
mod run;
mod spelled;
mod why;

pub use library::{Call, Library, Verdict};
pub use run::{run, Ended, To};

/// The numbers of refusals, in document 01's words.
#[allow(dead_code)]
#[path = "../../aura-judge/src/refusal.rs"]
mod refusal;

/// A number of refusal with its words.
fn numbered(number: u8) -> String {
    let words = refusal::Refusal::from_number(number).map_or("", |refusal| refusal.words());
    format!("{number}, {words}")
}

/// So many of these.
fn counted(count: usize, what: &str) -> String {
    format!("{count} {what}{}", if count == 1 { "" } else { "s" })
}
