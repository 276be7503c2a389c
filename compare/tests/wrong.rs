//! The comparison can fail: each wrong version of the words is found by it, in its CI length.

use compare::load;
use compare::run::{sweeps, Batch, Run, CI_COUNT, CI_SEED};
use std::time::Instant;
use wrong_words::{Wrong, WRONG};

/// CI's cases; the mixed ones come first, since most differences show there.
fn batches() -> Vec<Batch> {
    let mixed = Batch { profile: None, first: 0, count: CI_COUNT };
    [mixed].into_iter().chain(sweeps()).collect()
}

/// The first difference: the first of CI's loads, then its cases.
fn found(wrong: &Wrong) -> Result<(), String> {
    let only = std::slice::from_ref(&wrong.yardstick);
    load::compare(only, CI_SEED, 0..4, 2)?;
    Run::new(only, CI_SEED, 2).compare(&batches(), None)
}

#[test]
fn every_wrong_version_is_found() {
    let mut missed = Vec::new();
    for wrong in WRONG {
        let began = Instant::now();
        match found(wrong) {
            Ok(()) => missed.push(wrong.what),
            Err(what) => {
                let head = what.lines().next().unwrap_or("");
                let name = wrong.yardstick.name;
                println!("{} ({}): found at {}; {:.1} s", name, wrong.what, head, began.elapsed().as_secs_f64());
                assert!(what.contains(&format!("by {}", name)), "{}", what);
            }
        }
    }
    assert!(missed.is_empty(), "not found: {}", missed.join("; "));
    assert!(WRONG.len() >= 12);
}
