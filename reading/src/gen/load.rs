//! Questions of the test load (document 02, order 1), half of them under a generated table.

use super::model;
use crate::bytes::Bytes;
use crate::rng::Rng;
use crate::words::load;

/// The node counts that are taken.
pub const COUNTS: u64 = 64;

/// Room for the longest question.
const ROOM: usize = 133;

/// The start number at a place: first those at the ends and in the middle, then random ones.
pub fn start(place: u64, rng: &mut Rng) -> u32 {
    match place {
        0 => 0,
        1 => 1,
        2 => 1 << 31,
        3 => u32::MAX,
        _ => rng.next() as u32,
    }
}

/// Every node count at each place in turn.
pub fn load(rng: &mut Rng, index: u64) -> (Bytes, Bytes) {
    let nodes = 1 + (index % COUNTS) as usize;
    let question = load::load(start(index / COUNTS, rng), nodes, ROOM).expect("1 to 64 nodes fit");
    let table = if rng.chance(50) { Vec::new() } else { model::rich(rng).0 };
    (table, question)
}
