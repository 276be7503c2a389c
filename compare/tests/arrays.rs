//! The profile `arrays` and the sweep `array-sizes` ask what they are for (document 02, order 5).

mod seen;

use reading::gen::Profile;
use seen::{differ, SEEN};

/// How many cases of the profile are asked.
const CASES: u64 = 12_000;

/// The wrong versions of the rules about Arrays.
const OF_ARRAYS: [&str; 20] = [
    "kind_23_taken",
    "large_any_flag",
    "large_body_past_the_limit",
    "large_cut_at_the_limit",
    "large_cut_without_end",
    "large_element_early",
    "large_element_late",
    "large_flag_0",
    "large_flag_0_size_0",
    "large_size_of_7_bytes",
    "large_size_one_less",
    "large_size_scores_2",
    "large_to_another_size",
    "large_to_small",
    "large_without_members",
    "list_names_to_large",
    "list_to_any_array",
    "list_to_large",
    "size_high_byte_first",
    "small_to_large",
];

#[test]
fn the_profile_tells_each_wrong_version_from_the_words() {
    let counts = differ(&OF_ARRAYS, Profile::Arrays, 0..CASES);
    assert!(counts.iter().all(|(_, count)| *count >= SEEN), "{:?}", counts);
}

#[test]
fn the_sweep_tells_each_wrong_version_from_the_words() {
    let count = Profile::ArraySizes.count().expect("a sweep") as u64;
    let counts = differ(&OF_ARRAYS, Profile::ArraySizes, (0..count).step_by(5));
    assert!(counts.iter().all(|(_, count)| *count >= SEEN), "{:?}", counts);
}
