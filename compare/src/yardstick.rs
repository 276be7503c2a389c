//! What the proved judge is compared with.

use reading::words::{self, lent, load};
use reading::{Said, Yardstick};

/// The second reading of the documents: a yardstick everywhere.
pub const WORDS: Yardstick = Yardstick {
    name: "the words",
    says: |table, question| Some(words::said(table, question)),
    answer: lent::answer,
    load: |start, nodes, out| Some(load::write(start, nodes, out)),
};

/// The Rust's own methods: a yardstick inside the compared domain. They write nothing.
#[cfg(feature = "rust")]
pub const RUST: Yardstick =
    Yardstick { name: "the Rust", says: oracle::answer::said_inside, answer: lent::answer, load: |_, _, _| None };

/// Those that are built in.
#[cfg(feature = "rust")]
pub const ALL: &[Yardstick] = &[RUST, WORDS];
#[cfg(not(feature = "rust"))]
pub const ALL: &[Yardstick] = &[WORDS];

/// What yardsticks say of one table and question.
pub struct Sayings<'y>(Vec<(&'y Yardstick, Option<Said>)>);

impl<'y> Sayings<'y> {
    pub fn of(yardsticks: &'y [Yardstick], table: &[u8], question: &[u8]) -> Sayings<'y> {
        Sayings(yardsticks.iter().map(|y| (y, (y.says)(table, question))).collect())
    }

    /// Those that say something, each with it.
    pub fn each(&self) -> impl Iterator<Item = (&'y Yardstick, &Said)> {
        self.0.iter().filter_map(|(yardstick, said)| Some((*yardstick, said.as_ref()?)))
    }

    /// Whether the yardstick at a place says something.
    pub fn speaks(&self, place: usize) -> bool {
        self.0[place].1.is_some()
    }
}
