//! Pairs of tables (document 02, order 7): they ask what they are for, and each wrong version of the condition is found
//! within those that CI compares.

use compare::run::CI_SEED;
use compare::threads::caught;
use compare::undisturbed::{compare, verdict, Counts, Verdict, CI_PAIRS};
use reading::gen::undisturbed::{pair, Pair};
use reading::words::undisturbed::{added, is_undisturbed};
use std::time::Instant;
use wrong_words::{WrongCondition, CONDITIONS};

/// How many pairs the counts are of.
const PAIRS: u64 = 20_000;

fn counts() -> Counts {
    compare(verdict, CI_SEED, 0..PAIRS, 2, None).unwrap_or_else(|what| panic!("{}", what))
}

/// In three of ten pairs at least the condition holds and a visited call reads the list. Each way in which a call
/// satisfies it, and each in which it fails, is frequent; in each of the latter there are answers that differ.
#[test]
fn the_pairs_ask_what_they_are_for() {
    let counts = counts();
    println!("{}", counts.said());
    assert_eq!(counts.pairs, PAIRS);
    assert!(counts.reading * 10 >= PAIRS * 3);
    assert_eq!(counts.stands.len(), 3);
    assert!(counts.stands.values().all(|calls| calls * 20 >= PAIRS));
    assert_eq!(counts.fails.len(), 11);
    for (why, failed) in &counts.fails {
        assert!(failed.pairs * 500 >= PAIRS && failed.differ > 0, "{}: {:?}", why, failed);
    }
    is_not_too_strict(&counts);
}

/// "Ties are reported with their count", and "an unknown named argument is reported once per overload that fits in
/// number": a pair that fails by either, and whose answers are equal, would show a condition that is too strict.
fn is_not_too_strict(counts: &Counts) {
    for why in ["an equal score", "an unknown name"] {
        let failed = counts.fails[why];
        assert_eq!(failed.differ, failed.pairs, "{}", why);
    }
}

/// The number that is 1 for a table with too many bytes is drawn by the second table alone.
#[test]
fn a_table_is_lengthened_past_the_limit() {
    let lengths = (0..PAIRS).map(|index| pair(CI_SEED, index)).map(|pair| (pair.old.len(), pair.new.len()));
    let long = lengths.filter(|(_, new)| *new > 59_990);
    let (past, at_most): (Vec<_>, Vec<_>) = long.partition(|(old, new)| *old <= 60_000 && *new > 60_000);
    assert!(past.len() >= 3 && at_most.len() >= 3, "{} and {}", past.len(), at_most.len());
}

#[test]
fn a_pair_is_decided_by_the_condition_itself() {
    for index in 0..PAIRS / 4 {
        let pair = pair(CI_SEED, index);
        let Pair { old, new, question, .. } = &pair;
        let holds = added(old, new).is_ok_and(|added| is_undisturbed(old, new, &added, question));
        assert_eq!(holds, matches!(verdict(&pair), Verdict::Holds(_)), "index {}", index);
    }
}

#[test]
fn a_panic_says_its_index() {
    let panics = |_: &Pair| -> Verdict { panic!("the condition's") };
    let what = compare(panics, CI_SEED, 7..8, 1, None).unwrap_err();
    assert!(what.starts_with("undisturbed seed 1 index 7\nold table "), "{}", what);
    assert!(what.ends_with("\nthe words stopped"), "{}", what);
    let generated = caught("the generator", || -> Result<(), String> { panic!("the generator's") });
    assert_eq!(generated, Err(String::from("the generator stopped")));
}

/// The first pair of which a wrong version says that its answers are equal, and they are not.
fn found(wrong: &WrongCondition) -> Result<Counts, String> {
    let condition = |pair: &Pair| match (wrong.holds)(&pair.old, &pair.new, &pair.question) {
        true => Verdict::Holds(Vec::new()),
        false => Verdict::Fails(wrong.name),
    };
    compare(condition, CI_SEED, 0..CI_PAIRS, 2, None)
}

#[test]
fn every_wrong_condition_is_found() {
    let mut missed = Vec::new();
    for wrong in CONDITIONS {
        let began = Instant::now();
        match found(wrong) {
            Ok(_) => missed.push(wrong.name),
            Err(what) => {
                let (head, seconds) = (what.lines().next().unwrap_or(""), began.elapsed().as_secs_f64());
                println!("{} ({}): found at {}; {:.1} s", wrong.name, wrong.what, head, seconds);
                assert!(what.contains("the condition holds\nthe proved judge, buffer of"), "{}", what);
            }
        }
    }
    assert!(missed.is_empty(), "not found: {}", missed.join(", "));
    assert!(CONDITIONS.len() >= 13);
}
