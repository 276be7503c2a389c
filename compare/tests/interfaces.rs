//! The sweep `interfaces` and the profile `classes` ask what they are for (document 02, order 6).

mod seen;

use reading::gen::Profile;
use seen::{differ, SEEN};

/// How many cases of the profile are asked.
const CASES: u64 = 20_000;

/// The wrong versions of the rules about who is reached, and of where the fields of a class record stand.
const OF_WAYS: [&str; 16] = [
    "first_interface_forgotten",
    "first_way_alone",
    "interface_for_the_superclass",
    "interface_of_a_class_above_not_reached",
    "interface_without_record_not_reached",
    "operators_in_the_interfaces_first",
    "operators_through_an_interface",
    "package_for_the_first_interface",
    "package_for_the_second_interface",
    "protected_from_an_interface_on",
    "protected_through_an_interface",
    "reached_class_ends_the_row",
    "second_interface_forgotten",
    "subclass_climb_stops_outside_types",
    "subclass_one_step",
    "way_ends_at_an_interface",
];

/// The wrong versions of the rules about the numbers of a class record, and one about superclasses alone.
const OF_RECORDS: [&str; 11] = [
    "first_interface_late",
    "first_interface_undefined",
    "interface_itself",
    "interface_needs_a_record",
    "repeated_interface_refused",
    "second_interface_late",
    "second_interface_undefined",
    "superclass_as_interface_refused",
    "superclass_itself",
    "superclass_late",
    "superclass_without_record_not_met",
];

#[test]
fn the_profile_tells_each_wrong_version_of_the_ways_from_the_words() {
    let counts = differ(&OF_WAYS, Profile::Classes, 0..CASES);
    assert!(counts.iter().all(|(_, count)| *count >= SEEN), "{:?}", counts);
}

#[test]
fn the_sweep_tells_each_wrong_version_from_the_words() {
    let count = Profile::Interfaces.count().expect("a sweep") as u64;
    for names in [&OF_WAYS[..], &OF_RECORDS] {
        let counts = differ(names, Profile::Interfaces, (0..count).step_by(7));
        assert!(counts.iter().all(|(_, count)| *count >= SEEN), "{:?}", counts);
    }
}
