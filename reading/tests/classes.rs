//! The generator's classes and superclasses (document 02, order 2).

use reading::bytes::*;
use reading::gen::{case, mixed, Profile, PROFILES};
use reading::name::NONE;
use reading::words::symbols::Symbols;
use reading::words::table::{record_lengths, table_number};
use reading::words::{printed, refusal};

/// Whether some class has a superclass or an interface.
fn has_parent(table: &[u8]) -> bool {
    without_parents(table) != table
}

fn all_parents(table: &[u8]) -> Vec<[u16; 3]> {
    class_places(table).into_iter().map(|class| parents(table, class)).collect()
}

/// The most classes that are reached from one, over the class records of an accepted table.
fn longest_climb(table: &[u8]) -> usize {
    let symbols = Symbols::of(table);
    let mut at = 0;
    let mut longest = 0;
    for len in record_lengths(table) {
        if table[at] == 2 {
            let class = u16::from_le_bytes([table[at + 1], table[at + 2]]);
            longest = longest.max(symbols.reached_from(class).len());
        }
        at += len;
    }
    longest
}

#[test]
fn the_profile_is_accepted_but_for_its_longest_tables() {
    let (mut refused, mut flat) = (0, 0);
    for index in 0..6_000 {
        let case = case(Profile::Classes, 5, index);
        let number = refusal(&case.table, &case.question);
        assert_eq!(number, (case.table.len() == 60_001) as u8, "index {}", index);
        refused += number as u64;
        flat += !has_parent(&case.table) as u64;
    }
    assert!(refused > 0 && (2_700..=3_300).contains(&flat), "{} {}", refused, flat);
}

/// 40 classes and more among the short tables, hundreds in the longer ones, and as many as 60,000 bytes hold.
#[test]
fn chains_of_every_length_occur() {
    let mut longest: Vec<usize> = Vec::new();
    for index in 0..3_000 {
        let case = case(Profile::Classes, 5, index);
        if table_number(&case.table) == 0 && has_parent(&case.table) {
            longest.push(longest_climb(&case.table));
        }
    }
    let count = |range: &std::ops::Range<usize>| longest.iter().filter(|n| range.contains(n)).count();
    for range in [1..2, 2..3, 3..6, 6..20, 20..60, 100..500, 1_560..1_620] {
        assert!(count(&range) >= 2, "{:?}: {}", range, count(&range));
    }
}

/// All 40 built-in names, and as many own ones as fit beside the functions: 1,561.
#[test]
fn the_longest_chain_in_60000_bytes_occurs() {
    let full = |index: &u64| case(Profile::Classes, 5, *index).table;
    let tables = (0..20_000).filter(|i| i % 256 == 77).map(|i| full(&i));
    let met: Vec<usize> = tables.filter(|t| t.len() == 60_000 && has_parent(t)).map(|t| longest_climb(&t)).collect();
    assert!(met.iter().any(|n| *n == 40 + 1_561 - 1), "{:?}", met);
}

/// Superclasses and interfaces are taken out, and nothing else; interfaces alone; the older form's bytes.
#[test]
fn without_parents_only_they_are_missing() {
    let with = |parents: [u16; 3]| {
        let mut table = Table::with_names(&["Scan", "Page"]);
        table.class_below(41, [NONE, NONE, 3], 0, true);
        table.class_below(40, parents, 1, false);
        table.operators(40, 3);
        table.function(40, 41, 1, false, &[INT], &[]);
        table.bytes()
    };
    let (all, flat) = (with([41, 4, 5]), without_parents(&with([41, 4, 5])));
    assert_eq!(all_parents(&all), [[NONE, NONE, 3], [41, 4, 5]]);
    assert_eq!(all_parents(&flat), [[NONE; 3]; 2]);
    assert_eq!(without_parents(&with([NONE; 3])), flat);
    assert_eq!(without_parents(&flat), flat);
    assert_eq!(without_interfaces(&all), without_interfaces(&with([41, NONE, 6])));
    assert_eq!(all_parents(&without_interfaces(&all)), [[NONE; 3], [41, NONE, NONE]]);
    // A cut record, a byte that begins none, and a class behind it stay.
    let class = class_record(40, [41, NONE, NONE], NONE, 1);
    for bytes in [&class[..CLASS - 1], &[&[9], &class[..]].concat(), &[1, 2, 3], &[]] {
        assert_eq!(without_parents(bytes), bytes);
    }
}

/// In every other round of the mixed cases the profiles that have superclasses by the way have none.
#[test]
fn every_other_round_is_without_parents() {
    let (mut even, mut odd) = (0, 0);
    for index in 0..15 * 200 {
        let (place, round) = (index % 15, index / 15);
        if [0, 1, 3, 4, 5, 10, 11].contains(&place) {
            let counted = if round % 2 == 0 { &mut even } else { &mut odd };
            *counted += has_parent(&mixed(3, index).table) as usize;
        }
    }
    assert!(even > 500 && odd == 0, "{} {}", even, odd);
}

/// A sweep that is gone through twice has the same questions both times, the second time without superclasses.
#[test]
fn the_second_round_of_a_sweep_is_without_parents() {
    for profile in [Profile::OneNode, Profile::Pairs, Profile::Singles, Profile::Assign, Profile::Below] {
        let once = profile.count().expect("a sweep") as u64 / 2;
        for index in (0..once).step_by(1 + once as usize / 300) {
            let (first, second) = (case(profile, 1, index), case(profile, 1, once + index));
            assert!(has_parent(&first.table) && !has_parent(&second.table));
            assert_eq!((without_parents(&first.table), first.question), (second.table, second.question));
        }
    }
    assert_eq!(PROFILES.iter().filter(|(p, _)| p.count().is_some()).count(), 11);
}

/// The sweep over wrappings: how many of its first round's answers are others without superclasses.
#[test]
fn the_sweep_over_wrappings_asks_the_rule() {
    let once = Profile::Below.count().expect("a sweep") as u64 / 2;
    let differs = |index: &u64| {
        let (first, second) = (case(Profile::Below, 1, *index), case(Profile::Below, 1, once + index));
        printed(&first.table, &first.question) != printed(&second.table, &second.question)
    };
    let count = (0..once).filter(differs).count();
    println!("below: {} of {} answers depend on the superclasses", count, once);
    assert!(count > 1_000);
}
