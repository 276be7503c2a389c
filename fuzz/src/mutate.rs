//! Mutations that keep the table's length right, and mostly its records and the tree whole.

use reading::bytes::{array, array_body, binary, call, leaf, member, method, named_arg, unary, Bytes, CLASS};
use reading::gen::damage::damage;
use reading::gen::model::random_type;
use reading::gen::sweep::type_list;
use reading::name::NONE;
use reading::places::{in_question, in_table, parts};
use reading::rng::Rng;
use reading::words::question::read_node;
use reading::words::table::{name_count, record_lengths};
use reading::words::types::is_array;
use reading::{join_input, split_input};
use std::ops::Range;

extern "C" {
    fn LLVMFuzzerMutate(data: *mut u8, size: usize, most: usize) -> usize;
}

/// How much longer one mutation makes a part at most.
const GROWTH: usize = 256;

/// Sizes of Arrays at the limits of both kinds.
const SIZES: [Option<u64>; 8] =
    [None, Some(0), Some(1), Some(u32::MAX as u64), Some(1 << 32), Some((1 << 32) + 1), Some(1 << 63), Some(u64::MAX)];

/// Where a class record has its superclass, its interfaces and its package.
const PARENTS: [usize; 3] = [3, 5, 7];
const PACKAGE: usize = 9;

#[no_mangle]
pub extern "C" fn LLVMFuzzerCustomMutator(data: *mut u8, size: usize, most: usize, seed: u32) -> usize {
    let mut rng = Rng::new(seed as u64, 0, 0);
    // SAFETY: libFuzzer's input, with room for `most` bytes; the slice ends before the pointer is used again.
    let input = unsafe { std::slice::from_raw_parts(data, size) };
    let made = if rng.chance(5) { None } else { mutated(&mut rng, input) };
    match made {
        Some(made) if made.len() <= most => put(&made, data),
        // SAFETY: libFuzzer's own arguments.
        _ => unsafe { LLVMFuzzerMutate(data, size, most) },
    }
}

#[no_mangle]
pub extern "C" fn LLVMFuzzerCustomCrossOver(
    one: *const u8,
    one_size: usize,
    other: *const u8,
    other_size: usize,
    out: *mut u8,
    most: usize,
    seed: u32,
) -> usize {
    let mut rng = Rng::new(seed as u64, 1, 0);
    // SAFETY: two of libFuzzer's inputs.
    let (one, other) =
        unsafe { (std::slice::from_raw_parts(one, one_size), std::slice::from_raw_parts(other, other_size)) };
    let (table, question) = split_input(one);
    let (_, strange) = split_input(other);
    let parts = subtrees(strange);
    let made = if parts.is_empty() || rng.chance(40) {
        join_input(table, strange)
    } else {
        let part = &strange[rng.pick(&parts).clone()];
        join_input(table, &replaced(&mut rng, question, part))
    };
    match made {
        Some(made) if made.len() <= most => put(&made, out),
        _ => 0,
    }
}

/// Writes to libFuzzer's room, which is long enough.
fn put(made: &[u8], out: *mut u8) -> usize {
    // SAFETY: the callers have compared the length with the room's.
    unsafe { std::ptr::copy_nonoverlapping(made.as_ptr(), out, made.len()) };
    made.len()
}

/// One mutation of the parts of an input, or two.
fn mutated(rng: &mut Rng, input: &[u8]) -> Option<Bytes> {
    let (table, question) = split_input(input);
    let (mut table, mut question) = (table.to_vec(), question.to_vec());
    for _ in 0..1 + rng.chance(35) as usize {
        match rng.below(100) {
            0..=9 => own(&mut table),
            10..=23 => own(&mut question),
            24..=31 => (table, question) = damage(rng, (table, question)),
            32..=47 => change_field(rng, &mut table),
            48..=54 => match rng.chance(40) {
                true => change_size(rng, &mut table, in_table),
                false => change_size(rng, &mut question, in_question),
            },
            55..=69 => {
                let parts = subtrees(&question);
                if !parts.is_empty() {
                    let part = question[rng.pick(&parts).clone()].to_vec();
                    question = replaced(rng, &question, &part);
                }
            }
            70..=84 => {
                let ty = some_type(rng, &table);
                question = replaced(rng, &question, &leaf(&ty));
            }
            _ => question = wrapped(rng, &table, &question),
        }
    }
    join_input(&table, &question)
}

/// libFuzzer's own mutation of a part.
fn own(part: &mut Bytes) {
    let len = part.len();
    part.resize(len + GROWTH, 0);
    // SAFETY: the part has so many bytes, all of them written.
    let made = unsafe { LLVMFuzzerMutate(part.as_mut_ptr(), len, part.len()) };
    part.truncate(made);
}

/// The places of a question's subtrees, up to the first faulty node.
fn subtrees(question: &[u8]) -> Vec<Range<usize>> {
    let mut places: Vec<Range<usize>> = Vec::new();
    // The subtrees that are not finished, each with how many children it lacks.
    let mut open: Vec<(usize, usize)> = Vec::new();
    let mut at = 5;
    while let Some(Ok((len, children))) = question.get(at..).map(|rest| read_node(rest, 65_536, 0)) {
        places.push(at..0);
        open.push((places.len() - 1, children));
        at += len;
        while let Some((place, 0)) = open.last().copied() {
            places[place].end = at;
            open.pop();
            if let Some((_, missing)) = open.last_mut() {
                *missing -= 1;
            }
        }
        if open.is_empty() {
            break;
        }
    }
    places.retain(|place| place.end > 0);
    places
}

/// A question with another subtree in some subtree's place.
fn replaced(rng: &mut Rng, question: &[u8], part: &[u8]) -> Bytes {
    let parts = subtrees(question);
    let mut made = question.to_vec();
    if parts.is_empty() {
        made.truncate(5);
        made.extend_from_slice(part);
    } else {
        made.splice(rng.pick(&parts).clone(), part.iter().copied());
    }
    made
}

/// Another owner, name, superclass, interface, package, visibility or flag in some record.
fn change_field(rng: &mut Rng, table: &mut [u8]) {
    let mut at = 0;
    let mut records = Vec::new();
    for len in record_lengths(table) {
        if table[at] >= 2 {
            records.push(at..at + len);
        }
        at += len;
    }
    if records.is_empty() {
        return;
    }
    let id = if rng.chance(15) { NONE } else { some_id(rng, table) };
    let place = rng.pick(&records).clone();
    // A superclass or an interface whose record stands earlier is accepted.
    let above = class_ids(&table[..place.start]);
    let record = &mut table[place];
    match (rng.below(3), record[0]) {
        (1, 2) if !above.is_empty() && rng.chance(80) => {
            let at = *rng.pick(&PARENTS);
            record[at..at + 2].copy_from_slice(&rng.pick(&above).to_le_bytes());
        }
        (1, 2) => {
            let at = *rng.pick(&PARENTS);
            record[at..at + 2].copy_from_slice(&id.to_le_bytes());
        }
        (0, _) => record[1..3].copy_from_slice(&id.to_le_bytes()),
        (1, _) => record[3..5].copy_from_slice(&id.to_le_bytes()),
        (_, 2) if rng.chance(50) => record[PACKAGE..PACKAGE + 2].copy_from_slice(&id.to_le_bytes()),
        (_, 2) => record[CLASS - 1] ^= 1,
        (_, 4) if rng.chance(50) => record[6] ^= 1,
        (_, 4 | 6) => record[5] = rng.below(4) as u8,
        _ => {}
    }
}

/// Another size, flag or kind of an Array in some type.
fn change_size(rng: &mut Rng, bytes: &mut Bytes, places: fn(&[u8]) -> Vec<Range<usize>>) {
    let mut arrays = Vec::new();
    for place in places(bytes) {
        let mut at = place.start;
        for part in parts(&bytes[place]) {
            if is_array(part[0]) {
                arrays.push(at..at + part.len());
            }
            at += part.len();
        }
    }
    if arrays.is_empty() {
        return;
    }
    let size = *rng.pick(&SIZES);
    let body = match rng.below(8) {
        0 => vec![15],
        1 => array_body(22, rng.below(3) as u8, &size.unwrap_or(0).to_le_bytes(), &[]),
        _ => array(size, &[]),
    };
    bytes.splice(rng.pick(&arrays).clone(), body);
}

/// The classes of a table that have a record.
fn class_ids(table: &[u8]) -> Vec<u16> {
    let mut at = 0;
    let mut ids = Vec::new();
    for len in record_lengths(table) {
        if table[at] == 2 {
            ids.push(u16::from_le_bytes([table[at + 1], table[at + 2]]));
        }
        at += len;
    }
    ids
}

/// A name of the table's members and functions, or any.
fn some_id(rng: &mut Rng, table: &[u8]) -> u16 {
    let mut at = 0;
    let mut ids = Vec::new();
    for len in record_lengths(table) {
        if table[at] >= 4 {
            ids.push(u16::from_le_bytes([table[at + 3], table[at + 4]]));
        }
        at += len;
    }
    match ids.is_empty() || rng.chance(30) {
        true => rng.below(name_count(table)) as u16,
        false => *rng.pick(&ids),
    }
}

fn some_type(rng: &mut Rng, table: &[u8]) -> Bytes {
    let names = name_count(table);
    let classes = class_ids(table);
    let one = |rng: &mut Rng| match classes.is_empty() || rng.chance(50) {
        true => rng.below(names) as u16,
        false => *rng.pick(&classes),
    };
    let types: Vec<u16> = (0..4).map(|_| one(rng)).collect();
    // The list's types name up to four names of the table.
    let ty = match names >= 44 && rng.chance(50) {
        true => rng.pick(type_list()).clone(),
        false => random_type(rng, 3, &types, true),
    };
    match rng.chance(20) {
        true => array(*rng.pick(&SIZES), &ty),
        false => ty,
    }
}

/// A question with a node of any kind over some subtree.
fn wrapped(rng: &mut Rng, table: &[u8], question: &[u8]) -> Bytes {
    let parts = subtrees(question);
    if parts.is_empty() {
        return question.to_vec();
    }
    let place = rng.pick(&parts).clone();
    let inner = question[place.clone()].to_vec();
    let beside = question[rng.pick(&parts).clone()].to_vec();
    let id = some_id(rng, table);
    let args: Vec<Bytes> = (0..rng.below(4)).map(|_| beside.clone()).collect();
    let over = match rng.below(7) {
        0 => binary(rng.below(23) as u8, &inner, &beside),
        1 => binary(rng.below(23) as u8, &beside, &inner),
        2 => unary(rng.below(7) as u8, &inner),
        3 => named_arg(id, &inner),
        4 => member(id, &inner),
        5 => call(id, &[vec![inner], args].concat()),
        _ => method(id, &inner, &args),
    };
    let mut made = question.to_vec();
    made.splice(place, over);
    made
}
