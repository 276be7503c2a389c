//! The profile `classes` asks what it is for (document 02, orders 2 and 6).

use compare::yardstick::WORDS;
use reading::bytes::without_parents;
use reading::gen::{case, Profile};
use reading::words::refusal;
use wrong_words::WRONG;

/// How many cases the counts are of.
const CASES: u64 = 20_000;

/// In at least a tenth of the cases with a superclass or an interface the answer is another where order 2's rule is
/// left out.
#[test]
fn the_rule_decides_in_a_tenth_of_the_cases_with_parents() {
    let left_out =
        WRONG.iter().find(|wrong| wrong.yardstick.name == "subclass_rule_left_out").expect("the wrong version");
    let (mut with, mut decided, mut without) = (0, 0, 0);
    for index in 0..CASES {
        let case = case(Profile::Classes, 1, index);
        if refusal(&case.table, &case.question) != 0 {
            continue;
        }
        let said = |says: fn(&[u8], &[u8]) -> Option<reading::Said>| says(&case.table, &case.question);
        let differs = said(WORDS.says) != said(left_out.yardstick.says);
        if without_parents(&case.table) == case.table {
            without += 1;
            assert!(!differs, "index {}: no class has a parent", index);
        } else {
            with += 1;
            decided += differs as u64;
        }
    }
    println!("classes: {} cases with parents, {} of them decided by the rule; {} without", with, decided, without);
    assert!(10 * decided >= with && with >= CASES * 4 / 10 && without >= CASES * 4 / 10);
}
