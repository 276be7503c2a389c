//! The generator's names and ids (document 02, order 3).

use reading::gen::{case, Case, Profile};
use reading::words::refusal;
use reading::words::table::{name_count, record_lengths, table_number};

const SEED: u64 = 1;

fn cases() -> impl Iterator<Item = Case> {
    (0..Profile::Names.count().expect("a sweep") as u64).map(|index| case(Profile::Names, SEED, index))
}

/// The bytes of the names that stand first.
fn front(table: &[u8]) -> usize {
    let mut at = 0;
    for len in record_lengths(table) {
        if table[at] != 1 {
            break;
        }
        at += len;
    }
    at
}

/// Every number from 0 to 11 is drawn, and those that the order is about in at least 1,000 cases.
#[test]
fn every_number_is_drawn() {
    let mut drawn = [0; 12];
    cases().for_each(|case| drawn[refusal(&case.table, &case.question) as usize] += 1);
    println!("names: numbers 0 to 11 are drawn {:?} times", drawn);
    assert!(drawn.iter().all(|count| *count >= 100));
    assert!([0, 2, 3, 4, 5, 8, 10].iter().all(|number| drawn[*number] >= 1_000));
}

/// Where a record is refused with 4 and a name stands behind it, the same name in front of the other kinds takes the 4 away
/// in some cases, and in the others not.
#[test]
fn later_names_would_define_some_ids() {
    let (mut defined, mut undefined) = (0, 0);
    for case in cases() {
        let table = &case.table;
        let behind = table.len().saturating_sub(26);
        if table_number(table) != 4 || front(table) >= behind || table[behind..][..2] != [1, 5] {
            continue;
        }
        let (names, rest) = table[..behind].split_at(front(table));
        match table_number(&[names, &table[behind..], rest].concat()) {
            4 => undefined += 1,
            _ => defined += 1,
        }
    }
    println!("names: {} of {} ids would be defined by the name behind", defined, defined + undefined);
    assert!(defined >= 500 && undefined >= 500);
}

/// From no name to as many as 60,000 bytes hold, questions are asked under accepted tables.
#[test]
fn questions_are_asked_under_every_count() {
    let mut counts = std::collections::BTreeMap::new();
    for case in cases().filter(|case| table_number(&case.table) == 0) {
        let asked = counts.entry(name_count(&case.table) - 40).or_insert([0; 2]);
        match refusal(&case.table, &case.question) {
            0 => asked[0] += 1,
            10 => asked[1] += 1,
            _ => {}
        }
    }
    println!("names: accepted questions and those refused with 10 by the number of names: {:?}", counts);
    for names in [0, 1, 2, 3, 78, 79, 215, 216, 217, 630, 631, 2298, 2306, 2307] {
        let asked = counts.get(&names).expect("a table of so many names");
        assert!(asked.iter().all(|count| *count >= 20), "{}: {:?}", names, asked);
    }
}
