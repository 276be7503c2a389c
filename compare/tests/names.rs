//! The sweep `names` asks what it is for (document 02, order 3).

use compare::yardstick::WORDS;
use reading::gen::{case, Profile};
use reading::Said;
use wrong_words::{Wrong, WRONG};

/// The wrong versions of the rules about names and ids.
const OF_NAMES: [&str; 12] = [
    "every_record_counted",
    "header_id_one_more",
    "last_built_in_name_taken",
    "later_names_defined",
    "letter_behind_name",
    "name_behind_another_kind",
    "names_one_early",
    "names_one_late",
    "node_id_one_more",
    "none_undefined",
    "question_one_late",
    "question_without_names",
];

/// Each of them gives another answer in at least 10 of every third case of the sweep.
#[test]
fn the_sweep_tells_each_wrong_version_from_the_words() {
    let versions: Vec<&Wrong> = WRONG.iter().filter(|wrong| OF_NAMES.contains(&wrong.yardstick.name)).collect();
    assert_eq!(versions.len(), OF_NAMES.len());
    let mut differ = vec![0; versions.len()];
    for index in (0..Profile::Names.count().expect("a sweep") as u64).step_by(3) {
        let case = case(Profile::Names, 1, index);
        let said = |says: fn(&[u8], &[u8]) -> Option<Said>| says(&case.table, &case.question);
        let right = said(WORDS.says);
        for (count, wrong) in differ.iter_mut().zip(&versions) {
            *count += (said(wrong.yardstick.says) != right) as u64;
        }
    }
    for (count, wrong) in differ.iter().zip(&versions) {
        println!("names: {} cases differ for {} ({})", count, wrong.yardstick.name, wrong.what);
    }
    assert!(differ.iter().all(|count| *count >= 10));
}
