//! Document 02, "order 1. A test load for both products." "From a 32-bit start number and a node count the part writes
//! a question with header FF FF FF FF 00 (hex) for an empty table."

use super::written::written;
use crate::answer::Written;

const HEADER: [u8; 5] = [0xff, 0xff, 0xff, 0xff, 0];

/// The question's length: each node has two bytes.
const fn length(nodes: usize) -> usize {
    HEADER.len() + 2 * nodes
}

/// The question, or the number that refuses it. "It refuses a node count outside 1 to 64 with 14, then a buffer too
/// short for the question with 15".
pub fn load(start: u32, nodes: usize, buffer: usize) -> Result<Vec<u8>, u8> {
    if !(1..=64).contains(&nodes) {
        return Err(14);
    }
    if buffer < length(nodes) {
        return Err(15);
    }
    Ok([&HEADER[..], &Draws { state: start as u64 }.tree(nodes)].concat())
}

/// The answer; the whole buffer is written.
pub fn write(start: u32, nodes: usize, buffer: &mut [u8]) -> Written {
    written(&load(start, nodes, buffer.len()), buffer)
}

struct Draws {
    state: u64,
}

impl Draws {
    /// "Each draw sets state to state × 1,664,525 + 1,013,904,223 modulo 2^32 and takes (state div 65,536) modulo n."
    fn draw(&mut self, n: usize) -> u8 {
        let before = self.state;
        self.state = (before * 1_664_525 + 1_013_904_223) % (1 << 32);
        (self.state / 65_536 % n as u64) as u8
    }

    /// "One node left: leaf, kind by n = 12. Two: unary. More: n = 2, 0 unary, 1 binary. The operator is drawn next
    /// (7 or 23)". The bytes of this many nodes.
    fn tree(&mut self, nodes: usize) -> Vec<u8> {
        match nodes {
            1 => vec![0, self.draw(12)],
            2 => self.unary(nodes),
            _ if self.draw(2) == 0 => self.unary(nodes),
            _ => self.binary(nodes),
        }
    }

    fn unary(&mut self, nodes: usize) -> Vec<u8> {
        let operator = self.draw(7);
        [vec![2, operator], self.tree(nodes - 1)].concat()
    }

    /// "for a binary with k nodes the left side has 1 plus a draw of n = k − 2, the right the rest; left is written
    /// first." The binary itself is one of the k.
    fn binary(&mut self, k: usize) -> Vec<u8> {
        let (operator, size) = (self.draw(23), 1 + self.draw(k - 2) as usize);
        let left = self.tree(size);
        let right = self.tree(k - 1 - size);
        [vec![1, operator], left, right].concat()
    }
}

#[cfg(test)]
mod tests {
    use super::super::{question, refusal};
    use super::*;

    /// The tree's bytes where the buffer has just the question's length.
    fn tree(start: u32, nodes: usize) -> Vec<u8> {
        load(start, nodes, length(nodes)).expect("a question")[5..].to_vec()
    }

    /// From 0 the states are 1013904223, 1196435762, 3519870697, 2868466484; div 65,536: 15470, 18256, 53708, 43769.
    #[test]
    fn from_zero() {
        // 15470 mod 12 = 2.
        assert_eq!(load(0, 1, 7), Ok(vec![255, 255, 255, 255, 0, 0, 2]));
        // Two nodes: the operator 15470 mod 7 = 0, the leaf 18256 mod 12 = 4.
        assert_eq!(tree(0, 2), [2, 0, 0, 4]);
        // 15470 is even: unary, by 18256 mod 7 = 0; then two nodes, 53708 mod 7 = 4 and 43769 mod 12 = 5.
        assert_eq!(tree(0, 3), [2, 0, 2, 4, 0, 5]);
    }

    /// From 2^32 − 1: 15445, 12311, 8835, 41343, 47029, 57284.
    #[test]
    fn a_binary_draws_its_operator_then_its_split() {
        // 15445 is odd: binary, by 12311 mod 23 = 6; 8835 mod 1 = 0; 41343 mod 12 = 3, 47029 mod 12 = 1.
        assert_eq!(tree(u32::MAX, 3), [1, 6, 0, 3, 0, 1]);
        // 8835 mod 2 = 1: two nodes on the left, 41343 mod 7 = 1 and 47029 mod 12 = 1; then 57284 mod 12 = 8.
        assert_eq!(tree(u32::MAX, 4), [1, 6, 2, 1, 0, 1, 0, 8]);
    }

    /// From 1: 15496, 24200, 33046, 46195; from 2^31: 48238, 51024, 20940, 11001.
    #[test]
    fn from_one_and_from_half() {
        assert_eq!(tree(1, 3), [2, 1, 2, 6, 0, 7]);
        assert_eq!(tree(1 << 31, 3), [2, 1, 2, 3, 0, 9]);
    }

    #[test]
    fn a_long_one_has_every_shape() {
        let bytes: [u8; 40] = [
            2, 2, 2, 4, 1, 10, 2, 6, 1, 20, 2, 0, 1, 3, 0, 3, 1, 2, 0, 8, 0, 1, 2, 4, 0, 10, 1, 14, 0, 7, 2, 1, 2, 3,
            2, 3, 2, 3, 0, 2,
        ];
        assert_eq!(tree(7, 20), bytes);
    }

    #[test]
    fn a_node_count_comes_before_a_short_buffer() {
        for nodes in [0, 65, 66, 1 << 31, usize::MAX / 2 + 1, usize::MAX] {
            assert_eq!([load(1, nodes, 0), load(1, nodes, 1_000)], [Err(14), Err(14)]);
        }
        for nodes in 1..=64 {
            assert_eq!(load(1, nodes, 4 + 2 * nodes), Err(15));
            assert_eq!(load(1, nodes, 5 + 2 * nodes).map(|bytes| bytes.len()), Ok(5 + 2 * nodes));
        }
    }

    /// "Each question written is accepted and has exactly the wanted nodes."
    #[test]
    fn accepted_with_the_wanted_nodes() {
        for start in [0, 1, 7, 1 << 31, u32::MAX] {
            for nodes in 1..=64 {
                let question = load(start, nodes, 200).expect("a question");
                assert_eq!(refusal(&[], &question), 0, "{start} {nodes}");
                assert_eq!(question::read(&question).kinds.len(), nodes);
            }
        }
    }

    #[test]
    fn every_byte_of_the_buffer_is_written() {
        let mut buffer = [0xaa; 9];
        assert_eq!(write(0, 1, &mut buffer), Written { number: 0, len: 7 });
        assert_eq!(buffer, [255, 255, 255, 255, 0, 0, 2, 0, 0]);
        for (nodes, number) in [(0, 14), (3, 15)] {
            let mut buffer = [0xaa; 9];
            assert_eq!(write(0, nodes, &mut buffer), Written { number, len: 0 });
            assert_eq!(buffer, [0; 9]);
        }
    }
}
