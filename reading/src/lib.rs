//! A second reading of the documents: the whole judgement and the test load from their words (`words`), apart from the
//! proved code's definitions and from the Rust's text, with a generator of cases and named examples.
//! Nothing here needs the AuraLang sources.

pub mod answer;
pub mod bytes;
pub mod examples;
pub mod gen;
pub mod hex;
pub mod name;
pub mod places;
pub mod rng;
pub mod words;

pub use answer::{join_input, print_answer, split_input, whole_input};
pub use answer::{Answer, Diagnostic, Said, Written, Yardstick, BUFFER};
