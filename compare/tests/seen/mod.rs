//! In how many of a profile's cases wrong versions of the words answer otherwise than the words.

use compare::yardstick::WORDS;
use reading::gen::{case, Profile};
use reading::Said;
use wrong_words::{Wrong, WRONG};

/// In how many cases each of them is to give another answer.
pub const SEEN: u64 = 10;

fn versions(names: &[&str]) -> Vec<&'static Wrong> {
    let versions: Vec<&Wrong> = WRONG.iter().filter(|wrong| names.contains(&wrong.yardstick.name)).collect();
    assert_eq!(versions.len(), names.len());
    versions
}

/// How many of some cases each of the versions of these names answers otherwise.
pub fn differ(names: &[&str], profile: Profile, indices: impl Iterator<Item = u64>) -> Vec<(&'static str, u64)> {
    let versions = versions(names);
    let mut counts: Vec<(&str, u64)> = versions.iter().map(|wrong| (wrong.yardstick.name, 0)).collect();
    for index in indices {
        let case = case(profile, 1, index);
        let said = |says: fn(&[u8], &[u8]) -> Option<Said>| says(&case.table, &case.question);
        let right = said(WORDS.says);
        for (count, wrong) in counts.iter_mut().zip(&versions) {
            count.1 += (said(wrong.yardstick.says) != right) as u64;
        }
    }
    println!("{}: {:?}", profile.name(), counts);
    counts
}
