//! The interface, and a small number of cases of every profile.

use aura_judge::raw::{answer_size, judge, ANSWER_SIZE, TOO_SHORT};
use compare::case::read;
use compare::load;
use compare::run::{sweeps, Batch, Run};
use compare::yardstick;
use reading::gen::PROFILES;

#[test]
fn the_named_examples_agree() {
    for example in reading::examples::all() {
        let mut buffer = vec![7; 65_535];
        let mut bytes = [7; ANSWER_SIZE];
        let number = judge(&example.table, &example.question, &mut buffer, &mut bytes);
        let (answer, _) = read(&bytes);
        assert_eq!(number, answer.number, "{}", example.name);
        assert_eq!(reading::print_answer(&answer, &buffer), example.printed(), "{}", example.name);
    }
}

#[test]
fn every_profile_agrees() {
    let every = PROFILES.iter().map(|(profile, _)| Batch { profile: Some(*profile), first: 0, count: 400 });
    let batches: Vec<Batch> = every.chain([Batch { profile: None, first: 0, count: 4_000 }]).collect();
    Run::new(yardstick::ALL, 3, 2).compare(&batches, None).unwrap_or_else(|what| panic!("{}", what));
    assert!(sweeps().len() >= 6);
}

/// Twelve start numbers with 73 node counts and 161 buffer lengths, and 88 more: each with 64 counts at two lengths.
#[test]
fn loads_agree() {
    let counts = load::compare(yardstick::ALL, 3, 0..100, 2).unwrap_or_else(|what| panic!("{}", what));
    assert_eq!(counts.calls, 12 * 73 * 161 + 100 * 64 * 2);
    let long_enough: u64 = (1..=64).map(|nodes| 161 - (5 + 2 * nodes)).sum();
    assert_eq!(counts.written, 12 * long_enough + 100 * 64);
}

#[test]
fn an_answer_slice_that_is_too_short_is_said() {
    assert_eq!(answer_size(), ANSWER_SIZE);
    // `!!` on an Int: one diagnostic.
    let question = [255, 255, 255, 255, 0, 2, 6, 0, 0];
    for room in 0..ANSWER_SIZE {
        let (mut buffer, mut bytes) = ([7; 10], vec![7; room]);
        assert_eq!(judge(&[], &question, &mut buffer, &mut bytes), TOO_SHORT);
        assert!(buffer.iter().chain(&bytes).all(|b| *b == 0), "{} bytes", room);
    }
}

#[test]
fn bytes_behind_the_answer_are_zero() {
    let question = [255, 255, 255, 255, 0, 2, 6, 0, 0];
    let (mut buffer, mut bytes) = ([7; 10], vec![7; 1_000]);
    assert_eq!(judge(&[], &question, &mut buffer, &mut bytes), 0);
    assert_eq!(buffer, [13, 0, 0, 0, 0, 0, 0, 0, 0, 0]);
    let mut right = vec![0; 1_000];
    right[2] = 1;
    right[4] = 1;
    right[12] = 21;
    assert_eq!(bytes, right);
}
