//! The named examples, to the letter.

use oracle::answer::{Outside, Run};
use oracle::Source;
use reading::examples::all;
use reading::words::refusal;

#[test]
fn every_example_prints_what_the_documents_say() {
    let (mut wrong, mut by_rust) = (Vec::new(), 0);
    for example in all() {
        let (source, printed) = oracle::printed_by(&example.table, &example.question);
        if printed != example.printed() {
            wrong.push(format!("{}: expected {:?}, printed {:?}", example.name, example.printed(), printed));
        }
        by_rust += (source == Source::Rust) as usize;
    }
    assert!(wrong.is_empty(), "{} of {} differ:\n{}", wrong.len(), all().len(), wrong.join("\n"));
    assert!(by_rust > 750, "only {} of {} examples are the Rust's", by_rust, all().len());
}

/// No example is outside the compared domain by a base that spells an owner; for each other reason some are.
#[test]
fn the_examples_outside_the_domain_have_a_reason_of_an_order() {
    let accepted = all().into_iter().filter(|e| refusal(&e.table, &e.question) == 0);
    let outside: Vec<Outside> = accepted.filter_map(|e| Run::inside(&e.table, &e.question).err()).collect();
    let count = |why: Outside| outside.iter().filter(|seen| **seen == why).count();
    for (why, least) in Outside::ALL.into_iter().zip([100, 60, 0, 10, 50, 20, 300]) {
        assert!(count(why) >= least, "{:?}: {} examples", why, count(why));
    }
    assert_eq!(count(Outside::Spelling), 0);
}
