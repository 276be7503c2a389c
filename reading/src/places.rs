//! Where types stand in a table and in a question, for the generator, the domain of `oracle/` and the mutations of `fuzz/`.

use crate::bytes::{array, Bytes};
use crate::words::question::{read_node, HEADER};
use crate::words::table::record_lengths;
use crate::words::types::{body_length, first, is_array};
use std::ops::Range;

/// The types in a table's records, up to the first that is malformed, cut or has a type without end: of a function its
/// result and its parameters', of a field its own.
pub fn in_table(table: &[u8]) -> Vec<Range<usize>> {
    let mut places = Vec::new();
    let mut start = 0;
    for len in record_lengths(table) {
        let end = start + len;
        let mut at = match table[start] {
            4 => start + 8,
            5 => start + 5,
            _ => end,
        };
        while at < end {
            let ty = at..at + first(&table[at..end]).len();
            // A parameter's name and flag stand before its type.
            at = ty.end + 3;
            places.push(ty);
        }
        start = end;
    }
    places
}

/// The types of a question's leaves, in the order of its bytes, up to the first faulty node.
pub fn in_question(question: &[u8]) -> Vec<Range<usize>> {
    let mut places = Vec::new();
    let mut at = HEADER;
    while let Some(Ok((len, _))) = question.get(at..).map(|rest| read_node(rest, usize::MAX, 0)) {
        if question[at] == 0 {
            places.push(at + 1..at + len);
        }
        at += len;
    }
    places
}

/// The kinds in a whole type, each with its body.
pub fn parts(ty: &[u8]) -> Vec<&[u8]> {
    let mut parts = Vec::new();
    let mut rest = ty;
    while !rest.is_empty() {
        let (part, behind) = rest.split_at(1 + body_length(rest[0]));
        parts.push(part);
        rest = behind;
    }
    parts
}

/// The size of an Array that begins so, if it has one.
pub fn size(part: &[u8]) -> Option<u64> {
    let size = part[2..].iter().rev().fold(0, |size, byte| size << 8 | *byte as u64);
    (part[1] == 1).then_some(size)
}

type Size<'a> = &'a dyn Fn(Option<u64>) -> Option<u64>;

/// The same types with every Array's size replaced.
fn resized(bytes: &[u8], places: Vec<Range<usize>>, new: Size) -> Bytes {
    let mut made = Vec::new();
    let mut at = 0;
    for place in places {
        made.extend_from_slice(&bytes[at..place.start]);
        at = place.end;
        for part in parts(&bytes[place]) {
            match is_array(part[0]) {
                true => made.extend(array(new(size(part)), &[])),
                false => made.extend_from_slice(part),
            }
        }
    }
    made.extend_from_slice(&bytes[at..]);
    made
}

/// The same table and question with every Array's size replaced.
pub fn with_sizes(table: &[u8], question: &[u8], new: Size) -> (Bytes, Bytes) {
    (resized(table, in_table(table), new), resized(question, in_question(question), new))
}
