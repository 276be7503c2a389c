//! The profile `arguments` and the sweep `own-parameters` ask what they are for (document 02, order 4).

mod seen;

use reading::gen::{case, Profile};
use reading::words::refusal;
use seen::{differ, SEEN};

/// How many cases of the profile are asked.
const CASES: u64 = 12_000;

/// The wrong versions of the order's rules.
const OF_ARGUMENTS: [&str; 15] = [
    "check_by_index",
    "defaults_skipped",
    "first_free_again",
    "left_over_no_match",
    "left_over_reported",
    "left_over_scores_0",
    "left_over_scores_as_vararg",
    "name_among_arguments_before",
    "named_mismatches_first",
    "named_parameter_taken_again",
    "repeated_name_taken_once",
    "second_way_kept",
    "unknown_name_passes_parameter",
    "unknown_name_takes_parameter",
    "vararg_takes_on",
];

#[test]
fn the_profile_tells_each_wrong_version_from_the_words() {
    let counts = differ(&OF_ARGUMENTS, Profile::Arguments, 0..CASES);
    assert!(counts.iter().all(|(_, count)| *count >= SEEN), "{:?}", counts);
    // The order decides: where every unnamed argument meets the first free parameter a tenth is answered otherwise.
    let old = counts.iter().find(|(name, _)| *name == "first_free_again").expect("the version");
    assert!(old.1 * 10 >= CASES, "{:?}", old);
}

#[test]
fn the_sweep_tells_each_wrong_version_from_the_words() {
    let count = Profile::OwnParameters.count().expect("a sweep") as u64;
    let counts = differ(&OF_ARGUMENTS, Profile::OwnParameters, (0..count).step_by(17));
    assert!(counts.iter().all(|(_, count)| *count >= SEEN), "{:?}", counts);
}

#[test]
fn every_case_of_both_is_accepted() {
    let count = Profile::OwnParameters.count().expect("a sweep") as u64;
    let sweep = (0..count).map(|index| case(Profile::OwnParameters, 1, index));
    for case in (0..CASES).map(|index| case(Profile::Arguments, 1, index)).chain(sweep) {
        assert_eq!(refusal(&case.table, &case.question), 0, "{:?}", case);
    }
}
