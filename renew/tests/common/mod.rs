//! Tables of the older form, written in bytes.

#![allow(dead_code)]

pub mod process;

pub const NONE: u16 = 65_535;

pub fn name(text: &str) -> Vec<u8> {
    let mut record = vec![1, text.len() as u8];
    record.extend(text.as_bytes());
    record.resize(26, 0);
    record
}

/// `count` names of four letters, from id 40 on.
pub fn names(count: usize) -> Vec<u8> {
    (0..count).flat_map(|i| name(&format!("n{i}"))).collect()
}

fn ids(kind: u8, ids: &[u16]) -> Vec<u8> {
    [kind].into_iter().chain(ids.iter().flat_map(|id| id.to_le_bytes())).collect()
}

/// A class record of 8 bytes.
pub fn older_class(class: u16, superclass: u16, package: u16, in_types: bool) -> Vec<u8> {
    [ids(2, &[class, superclass, package]), vec![in_types.into()]].concat()
}

/// A class record of 12 bytes; the parents are its superclass and its interfaces.
pub fn class(class: u16, parents: [u16; 3], package: u16, in_types: bool) -> Vec<u8> {
    [ids(2, &[&[class], &parents[..], &[package]].concat()), vec![in_types.into()]].concat()
}

/// One record of each kind from 3 to 8.
pub fn other_records() -> Vec<u8> {
    [
        vec![3, 6, 0, 1, 4],
        vec![4, 6, 0, 6, 0, 0, 0, 1, 15, 17, 6, 0, 20, 0, 1, 9],
        vec![5, 6, 0, 22, 0, 14, 1, 3, 0, 0, 0, 7],
        vec![6, 6, 0, 22, 0, 1],
        vec![7, 255, 255, 20, 0],
        vec![8, 6, 0, 23, 0],
    ]
    .concat()
}

/// A table of both forms: three classes of 8 bytes that are two classes of 12 as well.
pub fn both_forms() -> Vec<u8> {
    let older =
        [older_class(40, NONE, NONE, false), older_class(41, 512, 42, false), older_class(43, NONE, NONE, false)]
            .concat();
    let now = [class(40, [NONE, NONE, 512], 41, false), class(42, [512, 43, NONE], NONE, false)].concat();
    assert_eq!(older, now);
    [names(473), older].concat()
}
