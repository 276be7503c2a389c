//! Damaged copies of accepted cases, and random bytes.

use super::model;
use crate::bytes::Bytes;
use crate::rng::Rng;
use crate::words::table::record_lengths;

type Pair = (Bytes, Bytes);

fn an_accepted(rng: &mut Rng) -> Pair {
    match rng.below(5) {
        0 => model::calls(rng),
        1 => model::members(rng),
        2 => model::operators(rng),
        3 => model::wide(rng),
        _ => model::rich(rng),
    }
}

/// A byte that is likely to matter.
pub fn telling_byte(rng: &mut Rng) -> u8 {
    match rng.below(5) {
        0 => rng.byte(),
        1 => 255,
        2 => rng.below(23) as u8,
        3 => 16 + rng.below(2) as u8,
        _ => rng.below(9) as u8,
    }
}

pub fn damage_bytes(rng: &mut Rng, bytes: &mut Bytes) {
    if bytes.is_empty() {
        bytes.push(telling_byte(rng));
        return;
    }
    let at = rng.below(bytes.len());
    match rng.below(8) {
        0..=2 => bytes[at] = telling_byte(rng),
        3 => bytes[at] ^= 1 << rng.below(8),
        4 => bytes.truncate(at),
        5 => bytes.insert(at, telling_byte(rng)),
        6 => {
            bytes.remove(at);
        }
        _ => {
            let end = (at + 1 + rng.below(6)).min(bytes.len());
            let part: Bytes = bytes[at..end].to_vec();
            bytes.splice(at..at, part);
        }
    }
}

/// Records moved, repeated or dropped whole, so that the rest stays well formed.
pub fn damage_records(rng: &mut Rng, table: &[u8]) -> Bytes {
    let mut records: Vec<Bytes> = Vec::new();
    let mut at = 0;
    for len in record_lengths(table) {
        records.push(table[at..at + len].to_vec());
        at += len;
    }
    if records.is_empty() {
        return table.to_vec();
    }
    let i = rng.below(records.len());
    let j = rng.below(records.len());
    match rng.below(6) {
        0 => records.swap(i, j),
        1 => {
            let again = records[i].clone();
            records.insert(i, again);
        }
        2 => {
            records.remove(i);
        }
        3 => {
            let moved = records.remove(i);
            records.insert(j.min(records.len()), moved);
        }
        4 => {
            // Neighbours of one kind change places: a superclass or an interface may come too late.
            if i + 1 < records.len() {
                records.swap(i, i + 1);
            }
        }
        _ => {
            // A field of one record as another of its kind has it.
            let same: Vec<usize> = (0..records.len()).filter(|k| records[*k][0] == records[i][0]).collect();
            let other = records[*rng.pick(&same)].clone();
            let place = 1 + 2 * rng.below(if records[i][0] == 2 { 5 } else { 3 });
            if place + 2 <= other.len() && place + 2 <= records[i].len() {
                records[i][place..place + 2].copy_from_slice(&other[place..place + 2]);
            }
        }
    }
    records.concat()
}

/// One or two damages to a table or a question.
pub fn damage(rng: &mut Rng, (mut table, mut question): Pair) -> Pair {
    for _ in 0..1 + rng.below(2) {
        match rng.below(8) {
            0..=2 => table = damage_records(rng, &table),
            3 | 4 => damage_bytes(rng, &mut table),
            _ => damage_bytes(rng, &mut question),
        }
    }
    (table, question)
}

pub fn damaged(rng: &mut Rng) -> Pair {
    let accepted = an_accepted(rng);
    damage(rng, accepted)
}

/// Random bytes, mostly small ones, sometimes behind a good start.
pub fn random(rng: &mut Rng) -> Pair {
    let small = |rng: &mut Rng, most: usize| -> Bytes {
        let len = rng.below(most + 1);
        let top = *rng.pick(&[3, 9, 23, 256]);
        (0..len).map(|_| rng.below(top) as u8).collect()
    };
    match rng.below(4) {
        0 => (small(rng, 40), small(rng, 40)),
        1 => {
            let mut question = vec![255, 255, 255, 255, 0];
            question.extend(small(rng, 30));
            (Vec::new(), question)
        }
        2 => {
            let (mut table, question) = an_accepted(rng);
            table.extend(small(rng, 30));
            (table, question)
        }
        _ => {
            let (table, mut question) = an_accepted(rng);
            question.truncate(5 + rng.below(question.len().saturating_sub(4)));
            question.extend(small(rng, 20));
            (table, question)
        }
    }
}
