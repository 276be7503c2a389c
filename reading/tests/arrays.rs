//! What the profile `arrays` and the sweep `array-sizes` are made of (document 02, order 5), and where types stand.

use reading::bytes::*;
use reading::gen::{case, mixed, Case, Profile};
use reading::places::{in_question, in_table, parts, size, with_sizes};
use reading::words::refusal;
use reading::words::types::{is_array, LARGE_ARRAY};
use std::collections::{BTreeMap, HashSet};

const LEAST: u64 = 1 << 32;

fn sweep() -> impl Iterator<Item = Case> {
    (0..Profile::ArraySizes.count().expect("a sweep") as u64).map(|index| case(Profile::ArraySizes, 1, index))
}

/// The parts of every type of a table and of a question's leaves.
fn all_parts(case: &Case) -> (Vec<Bytes>, Vec<Bytes>) {
    let of = |bytes: &[u8], places: Vec<std::ops::Range<usize>>| {
        places
            .into_iter()
            .flat_map(|place| parts(&bytes[place]).into_iter().map(<[u8]>::to_vec).collect::<Vec<_>>())
            .collect()
    };
    (of(&case.table, in_table(&case.table)), of(&case.question, in_question(&case.question)))
}

fn has_large(case: &Case) -> bool {
    let (table, question) = all_parts(case);
    table.iter().chain(&question).any(|part| part[0] == LARGE_ARRAY)
}

/// The counts that `array_sizes.rs` makes of its parts: 117 types in pairs, each in 3 ways; 8 ways around an element, for
/// classes in 9 ways, for two parameters and an argument in 9; 7 operators and 80 members and methods of each type; 256
/// flags with 14 sizes, 233 kinds with 5 tails, 121 ends before 3 others in 6 holders, each in 4 places; 24 offsets of 121
/// ends behind 5 kinds in 2 places; 24 of 13 bodies before 2 others in 4. A few ends with others behind them are the same bytes.
#[test]
fn the_sweep_has_as_many_cases_as_its_parts_say() {
    let count = Profile::ArraySizes.count().expect("a sweep");
    let asked = 117 * 117 * 3 + 8 * 8 * 9 + 8 * 8 * 8 * 9 + 117 * 87;
    let read = (256 * 14 + 233 * 5 + 121 * 3 * 6) * 4 + 24 * 121 * 5 * 2 + 24 * 13 * 2 * 4;
    let distinct: HashSet<(Bytes, Bytes)> = sweep().map(|case| (case.table, case.question)).collect();
    println!("array-sizes: {} cases, {} distinct", count, distinct.len());
    assert_eq!(count, asked + read);
    assert!(distinct.len() + 500 > count);
}

/// A size has one spelling: of every kind, flag and size the sweep has, those are accepted that `array` writes, and the rest
/// counts as malformed.
#[test]
fn a_size_has_one_spelling() {
    let (mut accepted, mut malformed) = (0, 0);
    for case in sweep().filter(|case| case.table.is_empty() && matches!(case.question[5..], [0, 14 | 22, ..])) {
        let ty = &case.question[6..];
        let flag_and_size = if ty[0] == 14 { 5 } else { 9 };
        // With an Int as its element and nothing behind it.
        if ty.len() != flag_and_size + 2 || ty[flag_and_size + 1] != INT {
            continue;
        }
        let part = &ty[..flag_and_size + 1];
        let well_formed = ty[1] <= 1 && array(size(part), &[INT]) == ty;
        assert_eq!(refusal(&case.table, &case.question), if well_formed { 0 } else { 8 }, "{:?}", ty);
        accepted += well_formed as usize;
        malformed += !well_formed as usize;
    }
    assert!(accepted >= 10 && malformed >= 3_000, "{} {}", accepted, malformed);
}

/// Every number that a type may draw, often.
#[test]
fn both_draw_every_number_that_a_type_may_draw() {
    let profile = (0..20_000).map(|index| case(Profile::Arrays, 1, index));
    for (name, least, cases) in [("arrays", 50, profile.collect::<Vec<_>>()), ("array-sizes", 300, sweep().collect())] {
        let mut drawn = [0; 12];
        cases.iter().for_each(|case| drawn[refusal(&case.table, &case.question) as usize] += 1);
        println!("{}: numbers 0 to 11 are drawn {:?} times", name, drawn);
        assert!([0, 2, 4, 7, 8, 10, 11].iter().all(|number| drawn[*number] >= least));
    }
}

/// Both kinds in each place of a table and in leaves, sizes at the limits, and both kinds in one case.
#[test]
fn the_profile_has_both_kinds_everywhere() {
    let (mut in_tables, mut in_leaves, mut sizes): (BTreeMap<u8, u64>, BTreeMap<u8, u64>, BTreeMap<u64, u64>) =
        Default::default();
    let (mut accepted, mut large, mut both) = (0, 0, 0);
    for index in 0..20_000 {
        let case = case(Profile::Arrays, 1, index);
        if refusal(&case.table, &case.question) != 0 {
            continue;
        }
        let (table, question) = all_parts(&case);
        table.iter().for_each(|part| *in_tables.entry(part[0]).or_default() += 1);
        question.iter().for_each(|part| *in_leaves.entry(part[0]).or_default() += 1);
        let arrays: Vec<&Bytes> = table.iter().chain(&question).filter(|part| is_array(part[0])).collect();
        arrays.iter().filter_map(|part| size(part)).for_each(|size| *sizes.entry(size).or_default() += 1);
        accepted += 1;
        large += has_large(&case) as u64;
        both += [14, 22].iter().all(|kind| arrays.iter().any(|part| part[0] == *kind)) as u64;
    }
    println!(
        "arrays: {} accepted, {} of them with a kind 22, {} with both kinds; sizes {:?}",
        accepted,
        large,
        both,
        sizes.len()
    );
    assert!([14, 22].iter().all(|kind| in_tables[kind] >= 3_000 && in_leaves[kind] >= 3_000));
    assert!([0, 1, LEAST - 1, LEAST, LEAST + 1, u64::MAX].iter().all(|size| sizes[size] >= 1_000));
    assert!(large * 5 > accepted * 2 && both * 5 > accepted, "{} {} {}", accepted, large, both);
}

/// In every other case the page has no kind 22; there is one only where a body at the limit or a damaged one is taken.
#[test]
fn every_other_case_has_small_arrays() {
    let (mut small, mut large) = (0, 0);
    for case in (0..20_000).step_by(2).map(|index| case(Profile::Arrays, 1, index)) {
        if refusal(&case.table, &case.question) == 0 {
            let counted = if has_large(&case) { &mut large } else { &mut small };
            *counted += 1;
        }
    }
    assert!(small > 5_000 && large * 10 < small, "{} {}", small, large);
}

/// The profile has the last place of each turn of the mixed cases. In every fourth round Arrays with a size are large where
/// superclasses occur by the way.
#[test]
fn the_mixed_cases_have_both_kinds() {
    for round in 0..20 {
        assert_eq!(mixed(3, 15 * round + 14), case(Profile::Arrays, 3, round));
    }
    let mut large = [0; 4];
    for index in 0..15 * 400 {
        let (place, round) = (index % 15, index / 15);
        if [0, 1, 3, 4, 5, 10, 11].contains(&place) {
            large[round as usize % 4] += has_large(&mixed(3, index)) as u64;
        }
    }
    assert!(large[0] >= 200 && large[1..] == [0; 3], "{:?}", large);
}

/// Every type of a table and of a question is found where it was put, and only sizes are replaced.
#[test]
fn with_other_sizes_the_rest_is_as_it_was() {
    let made = |size: Option<u64>| {
        let ty = map(&array(size, &[INT]), &list(&array(None, &named(22))));
        let mut table = Table::with_names(&["Page"]);
        table.class(40, 40, 22, false);
        table.function(40, 22, 0, true, &ty, &[(14, 0, ty.clone()), (22, 3, nullable(&ty))]);
        table.plain(14, &[INT], &[]);
        table.field(22, 14, &ty);
        table.suspend(22, 14);
        let tree =
            binary(IS, &method(22, &leaf(&ty), &[leaf(&array(size, &[CHAR]))]), &call(14, &[leaf(&type_var(22))]));
        (table.bytes(), question_in(22, 14, true, &tree))
    };
    let (table, question) = made(Some(7));
    assert_eq!((in_table(&table).len(), in_question(&question).len()), (5, 3));
    assert_eq!(with_sizes(&table, &question, &|size| size), (table.clone(), question.clone()));
    assert_eq!(with_sizes(&table, &question, &|size| size.map(|_| LEAST)), made(Some(LEAST)));
    let (table, question) = made(Some(LEAST));
    assert_eq!(with_sizes(&table, &question, &|size| size.map(|_| 7)), made(Some(7)));
    // What is broken, and what stands behind, stays.
    let tail = [5, 0, 0, 0, 0, 22, 2, 14, 1];
    let (smaller, _) = with_sizes(&table, &[], &|_| None);
    assert_eq!(with_sizes(&[&table[..], &tail].concat(), &[], &|_| None).0, [&smaller[..], &tail].concat());
}
