//! Filling the Rust's maps from a table.

use crate::rust::{Checker, ParamSym, VISIBILITIES};
use crate::types::decode;
use reading::name::{BUILT_IN, NONE};
use reading::words::table::record_lengths;
use std::collections::HashSet;

/// A table in the Rust's maps, with the names by number.
pub struct Filled {
    pub checker: Checker,
    pub names: Vec<String>,
}

fn word(bytes: &[u8], at: usize) -> u16 {
    u16::from_le_bytes([bytes[at], bytes[at + 1]])
}

/// Fills the Rust's maps from an accepted table's bytes, without any check.
pub fn fill(table: &[u8]) -> Filled {
    let mut checker = Checker::bare();
    let mut names: Vec<String> = BUILT_IN.iter().map(|n| n.to_string()).collect();
    let mut rest = table;
    while !rest.is_empty() {
        let len = fill_record(rest, &mut checker, &mut names);
        rest = &rest[len..];
    }
    Filled { checker, names }
}

fn fill_record(r: &[u8], checker: &mut Checker, names: &mut Vec<String>) -> usize {
    if r[0] == 1 {
        let name = r[2..2 + r[1] as usize].iter().map(|&c| c as char).collect();
        names.push(name);
        return 26;
    }
    let name = |at: usize| names[word(r, at) as usize].as_str();
    let optional = |at: usize| if word(r, at) == NONE { None } else { Some(name(at)) };
    let key = || match optional(1) {
        Some(owner) => format!("{}.{}", owner, name(3)),
        None => name(3).to_string(),
    };
    match r[0] {
        2 => {
            // The Rust has no interfaces here: a table with one is outside its domain.
            checker.add_class(name(1), optional(3), optional(9), r[11] == 1);
            12
        }
        3 => {
            let mask = word(r, 3);
            let methods = (0..11).filter(|bit| mask >> bit & 1 == 1).map(|bit| BUILT_IN[6 + bit].to_string());
            checker.add_operators(name(1), methods.collect());
            5
        }
        4 => {
            let (result, len) = decode(&r[8..], names);
            let mut at = 8 + len;
            let mut params = Vec::new();
            for _ in 0..r[7] {
                let (ty, len) = decode(&r[at + 3..], names);
                params.push(ParamSym {
                    name: name(at).to_string(),
                    ty,
                    has_default: r[at + 2] & 1 == 1,
                    is_vararg: r[at + 2] & 2 == 2,
                });
                at += 3 + len;
            }
            checker.add_function(key(), params, result, VISIBILITIES[r[5] as usize], r[6] == 1);
            at
        }
        5 => {
            let (ty, len) = decode(&r[5..], names);
            checker.add_field(key(), ty);
            5 + len
        }
        6 => {
            checker.add_member_visibility(key(), VISIBILITIES[r[5] as usize]);
            6
        }
        7 => {
            checker.add_suspend(key());
            5
        }
        8 => {
            checker.add_variant(name(1), name(3));
            5
        }
        kind => panic!("{} is no kind of record", kind),
    }
}

/// The superclass and the two interfaces of each class of an accepted table.
fn parents(table: &[u8]) -> Vec<[u16; 3]> {
    let mut all = Vec::new();
    let mut rest = table;
    while let [kind @ (1 | 2), ..] = rest {
        if *kind == 2 {
            all.push([3, 5, 7].map(|at| word(rest, at)));
        }
        rest = &rest[if *kind == 1 { 26 } else { 12 }..];
    }
    all
}

/// Whether some class of an accepted table has a superclass.
pub fn has_superclass(table: &[u8]) -> bool {
    parents(table).iter().any(|parents| parents[0] != NONE)
}

/// Whether some class of an accepted table has an interface.
pub fn has_interface(table: &[u8]) -> bool {
    parents(table).iter().any(|parents| parents[1..] != [NONE, NONE])
}

/// The owners that an accepted table's records of kinds 4 to 8 name, spelled.
pub fn owners(table: &[u8], names: &[String]) -> HashSet<String> {
    let mut owners = HashSet::new();
    let mut rest = table;
    for len in record_lengths(table) {
        if rest[0] >= 4 && word(rest, 1) != NONE {
            owners.insert(names[word(rest, 1) as usize].clone());
        }
        rest = &rest[len..];
    }
    owners
}
