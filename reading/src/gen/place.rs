//! The cases of a sweep by number: a sweep has parts, and a place in a part is taken apart into choices.

use crate::bytes::Bytes;

/// A place in a part of a sweep.
pub struct Place(pub usize);

impl Place {
    pub fn below(&mut self, n: usize) -> usize {
        let choice = self.0 % n;
        self.0 /= n;
        choice
    }

    pub fn of<T: Copy>(&mut self, choices: &[T]) -> T {
        choices[self.below(choices.len())]
    }
}

/// A part of a sweep: how many cases it has, and the case at a place.
pub type Part = (fn() -> usize, fn(Place) -> (Bytes, Bytes));

/// How many cases some parts have together.
pub fn count(parts: &[Part]) -> usize {
    parts.iter().map(|(count, _)| count()).sum()
}

/// The case of a number, or how far behind all parts it is.
pub fn case(parts: &[Part], number: usize) -> Result<(Bytes, Bytes), usize> {
    let mut at = number;
    for (count, case) in parts {
        if at < count() {
            return Ok(case(Place(at)));
        }
        at -= count();
    }
    Err(at)
}
