//! The run that CI does: everything occurs often enough, and the words agree with the Rust on every call.

use oracle::answer::Outside;
use oracle::coverage::{ci_run, required, Coverage, Item, CI_MIXED, CI_SEED};
use reading::gen::{self, Profile, PROFILES};

#[test]
fn every_number_operator_node_kind_and_diagnostic_occurs_at_least_100_times() {
    let coverage = ci_run(CI_MIXED, CI_SEED).unwrap_or_else(|e| panic!("{}", e));
    let faults = coverage.faults();
    assert!(faults.is_empty(), "too seldom: {}", faults.join(", "));
    assert!(coverage.cases > 1_000_000);
    // More than a third of the judged cases are compared with the Rust; each reason outside is asked often.
    let outside = Outside::ALL.map(|why| coverage.of(Item::Outside(why)));
    let inside = coverage.of(Item::Inside);
    assert!(inside > 250_000 && 2 * inside > outside.iter().sum(), "{} {:?}", inside, outside);
    assert!(outside.iter().all(|count| *count > 3_000), "{:?}", outside);
}

#[test]
fn an_empty_run_misses_everything() {
    assert_eq!(Coverage::default().faults().len(), required().len());
    // 13 numbers, 7 node kinds, 23 and 7 operators, the diagnostics with their numbers, and the rulings.
    assert!(required().len() > 13 + 7 + 30 + 17 + 2 * 16 + 4 + 3 + 2 + 17);
}

#[test]
fn profiles_have_their_names_and_places() {
    for (i, (profile, name)) in PROFILES.iter().enumerate() {
        assert_eq!((*profile as usize, profile.name(), Profile::by_name(name)), (i, *name, Some(*profile)));
    }
}

#[test]
fn accepted_profiles_are_accepted() {
    for profile in [
        Profile::Rich,
        Profile::Calls,
        Profile::Wide,
        Profile::Members,
        Profile::Operators,
        Profile::Outside,
        Profile::Load,
        Profile::Arguments,
    ] {
        for index in 0..3_000 {
            let case = gen::case(profile, 5, index);
            let number = reading::words::refusal(&case.table, &case.question);
            assert_eq!(number, 0, "{} {}", profile.name(), index);
        }
    }
}

/// The same bytes on every machine: a checksum of the first cases of each profile.
#[test]
fn the_same_seed_gives_the_same_bytes() {
    let mut sum: u64 = 0xcbf2_9ce4_8422_2325;
    let mut eat = |bytes: &[u8]| {
        for b in bytes {
            sum = (sum ^ *b as u64).wrapping_mul(0x100_0000_01b3);
        }
    };
    for (profile, _) in PROFILES {
        for index in 0..500 {
            let case = gen::case(profile, 42, index);
            eat(&(case.table.len() as u64).to_le_bytes());
            eat(&case.table);
            eat(&(case.question.len() as u64).to_le_bytes());
            eat(&case.question);
            eat(&(case.buffer as u64).to_le_bytes());
        }
    }
    assert_eq!(sum, CHECKSUM, "the generator changed: {:#x}", sum);
    assert_ne!(gen::mixed(1, 0), gen::mixed(2, 0));
}

const CHECKSUM: u64 = 0xeebb_c07d_d067_f4a3;

#[test]
fn the_type_list_has_at_least_60_types() {
    assert!(gen::sweep::type_list().len() >= 60);
}
