//! The test load: the library's writer beside the plainest Rust writer of the same bytes.

use reading::gen::load::start;
use reading::rng::Rng;

/// So many start numbers take turns. A power of two.
pub const STARTS: usize = 1024;

/// The node counts that are written.
pub const COUNTS: [usize; 4] = [1, 8, 32, 64];

/// Nanoseconds of one question of this many nodes.
pub struct Writing {
    pub nodes: usize,
    pub library: f64,
    pub plain: f64,
}

impl Writing {
    pub fn ratio(&self) -> f64 {
        self.library / self.plain
    }
}

pub fn starts() -> Vec<u32> {
    (0..STARTS as u64).map(|place| start(place, &mut Rng::new(1, 2, place))).collect()
}

/// The plainest writer: it refuses nothing, and stops where the buffer is too short.
pub fn plain(start: u32, nodes: usize, out: &mut [u8]) -> usize {
    out[..5].copy_from_slice(&[0xff, 0xff, 0xff, 0xff, 0]);
    let mut state = start;
    let end = tree(&mut state, nodes, out, 5);
    out[end..].fill(0);
    end
}

fn draw(state: &mut u32, n: u32) -> u32 {
    *state = state.wrapping_mul(1_664_525).wrapping_add(1_013_904_223);
    *state / 65_536 % n
}

fn put(out: &mut [u8], at: usize, kind: u8, drawn: u32) -> usize {
    out[at] = kind;
    out[at + 1] = drawn as u8;
    at + 2
}

/// A tree from a place on; answers where it ends.
fn tree(state: &mut u32, nodes: usize, out: &mut [u8], at: usize) -> usize {
    if nodes == 1 {
        return put(out, at, 0, draw(state, 12));
    }
    if nodes == 2 || draw(state, 2) == 0 {
        let at = put(out, at, 2, draw(state, 7));
        return tree(state, nodes - 1, out, at);
    }
    let at = put(out, at, 1, draw(state, 23));
    let left = 1 + draw(state, nodes as u32 - 2) as usize;
    let at = tree(state, left, out, at);
    tree(state, nodes - 1 - left, out, at)
}

#[cfg(test)]
mod tests {
    use super::*;
    use reading::words::load;

    #[test]
    fn the_plain_writer_writes_the_load() {
        for start in starts() {
            for nodes in 1..=64 {
                let (mut out, mut right) = ([7; 140], [7; 140]);
                let written = load::write(start, nodes, &mut right);
                assert_eq!((plain(start, nodes, &mut out), out), (written.len, right), "{start} {nodes}");
            }
        }
    }
}
