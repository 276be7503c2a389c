//! Document 02, order 4: "From now on the unnamed arguments take, in turn, the parameters that no argument names, each
//! parameter once. Scoring and the check of a single unmatched overload, in argument order, both use this". The marked
//! cases stand with document 01's.

use super::{base, l, t, List, A, F, P, Q, T, Z};
use crate::bytes::*;
use crate::name::NONE;

/// A name of the table that no parameter below has.
const UNKNOWN: u16 = A;

pub fn add(list: &mut List) {
    turns(list);
    names(list);
    repeated_names(list);
    unknown_names(list);
    left_over(list);
    left_over_scores(list);
    varargs_before_the_last(list);
    defaults(list);
    any_and_error(list);
    order_of_mismatches(list);
    sixteen(list);
    methods(list);
    builtins(list);
    several_overloads(list);
}

/// A parameter of a flat type.
fn p(name: u16, ty: u8) -> Param {
    (name, 0, t(ty))
}

fn flagged(name: u16, flag: u8, ty: u8) -> Param {
    (name, flag, t(ty))
}

/// A named argument whose value is a leaf.
fn n(name: u16, ty: u8) -> Bytes {
    named_arg(name, &l(ty))
}

/// The overloads of f, which give Char, Boolean and Double in this order.
fn overloads(lists: &[&[Param]]) -> Table {
    let mut table = base();
    for (params, result) in lists.iter().zip([CHAR, BOOLEAN, DOUBLE]) {
        table.plain(F, &[result], params);
    }
    table
}

fn put(list: &mut List, name: &str, table: &Table, args: &[Bytes], expected: &str) {
    list.tree(&format!("order4.{}", name), table, call(F, args), expected);
}

fn turns(list: &mut List) {
    list.of("each_parameter_is_taken_once_in_turn");
    let one = overloads(&[&[p(P, INT), p(Q, STRING)]]);
    let two = [l(INT), l(STRING)];
    put(list, "two-unnamed-take-two-parameters", &one, &two, "0 1 1 07 0");
    let turned = [l(STRING), l(INT)];
    put(list, "two-unnamed-in-the-other-order", &one, &turned, "0 0 1 07 2/17 1 1/17 2 2");
    put(list, "the-second-of-two-unnamed-differs", &one, &[l(INT), l(INT)], "0 0 1 07 1/17 2 2");
    put(list, "the-first-of-two-unnamed-differs", &one, &[l(STRING), l(STRING)], "0 0 1 07 1/17 1 1");
    let three = overloads(&[&[p(P, INT), p(Q, STRING), p(Z, BOOLEAN)]]);
    put(list, "three-unnamed-take-three-parameters", &three, &[l(INT), l(STRING), l(BOOLEAN)], "0 1 1 07 0");
    let last_two_turned = [l(INT), l(BOOLEAN), l(STRING)];
    put(list, "the-last-two-of-three-turned", &three, &last_two_turned, "0 0 1 07 2/17 2 2/17 3 3");
    let crossed = overloads(&[&[p(P, INT), p(Q, STRING)], &[p(P, STRING), p(Q, INT)]]);
    put(list, "crossed-overloads-called-int-string", &crossed, &two, "0 1 1 07 0");
    put(list, "crossed-overloads-called-string-int", &crossed, &turned, "0 1 1 06 0");
    put(list, "crossed-overloads-called-int-int", &crossed, &[l(INT), l(INT)], "0 0 1 15 1/18 0 0");
    let marked = overloads(&[&[p(P, INT), p(Q, INT)], &[p(P, INT), p(Q, STRING)]]);
    put(list, "the-marked-overloads-in-the-other-order-called-int-string", &marked, &two, "0 1 1 06 0");
    put(list, "the-marked-overloads-in-the-other-order-called-int-int", &marked, &[l(INT), l(INT)], "0 1 1 07 0");
    // Each parameter has its own share of the score: 2 and 1, and 1 and 2.
    let near = overloads(&[&[p(P, INT), p(Q, LONG)], &[p(P, LONG), p(Q, INT)]]);
    put(list, "an-exact-first-ties-with-an-exact-second", &near, &[l(INT), l(INT)], "0 0 1 07 1/19 0 2");
    put(list, "both-exact-beats-both-accepted", &near, &[l(INT), l(LONG)], "0 1 1 07 0");
    put(list, "both-exact-beats-both-accepted-in-front", &near, &[l(LONG), l(INT)], "0 1 1 06 0");
}

fn names(list: &mut List) {
    list.of("a_name_keeps_its_parameter_wherever_its_argument_stands");
    let three = overloads(&[&[p(P, INT), p(Q, STRING), p(Z, BOOLEAN)]]);
    let passes = "0 1 1 07 0";
    let mut of = |name: &str, args: [Bytes; 3], expected: &str| put(list, name, &three, &args, expected);
    of("the-first-named-in-front", [n(P, INT), l(STRING), l(BOOLEAN)], passes);
    of("the-first-named-in-the-middle", [l(STRING), n(P, INT), l(BOOLEAN)], passes);
    of("the-first-named-at-the-end", [l(STRING), l(BOOLEAN), n(P, INT)], passes);
    of("the-second-named-in-front", [n(Q, STRING), l(INT), l(BOOLEAN)], passes);
    of("the-second-named-in-its-place", [l(INT), n(Q, STRING), l(BOOLEAN)], passes);
    of("the-second-named-at-the-end", [l(INT), l(BOOLEAN), n(Q, STRING)], passes);
    of("the-last-named-in-front", [n(Z, BOOLEAN), l(INT), l(STRING)], passes);
    of("the-first-and-last-named-around-an-unnamed", [n(Z, BOOLEAN), l(STRING), n(P, INT)], passes);
    of("two-named-before-an-unnamed", [n(Q, STRING), n(P, INT), l(BOOLEAN)], passes);
    of("all-named-in-another-order", [n(Z, BOOLEAN), n(Q, STRING), n(P, INT)], passes);
    of("a-named-in-its-place-differs", [l(INT), n(Q, BOOLEAN), l(BOOLEAN)], "0 0 1 07 1/17 2 2");
    of("two-unnamed-behind-a-named-differ", [n(Z, BOOLEAN), l(STRING), l(INT)], "0 0 1 07 2/17 3 2/17 4 3");
    of("an-unnamed-behind-two-named-differs", [n(Q, STRING), n(P, INT), l(STRING)], "0 0 1 07 1/17 5 3");
    of("two-unnamed-before-a-named-differ", [l(INT), l(STRING), n(P, INT)], "0 0 1 07 2/17 1 1/17 2 2");
    let crossed = overloads(&[&[p(P, INT), p(Q, STRING)], &[p(P, STRING), p(Q, INT)]]);
    put(list, "p-named-behind-chooses-the-second", &crossed, &[l(INT), n(P, STRING)], "0 1 1 06 0");
    put(list, "q-named-behind-chooses-the-first", &crossed, &[l(INT), n(Q, STRING)], "0 1 1 07 0");
    put(list, "q-named-in-front-chooses-the-second", &crossed, &[n(Q, INT), l(STRING)], "0 1 1 06 0");
    put(list, "q-named-behind-and-none-matches", &crossed, &[l(INT), n(Q, INT)], "0 0 1 15 1/18 0 0");
    let one = overloads(&[&[p(P, INT), p(Q, STRING)]]);
    put(list, "q-named-in-front-matches", &one, &[n(Q, STRING), l(INT)], passes);
    put(list, "q-named-behind-matches", &one, &[l(INT), n(Q, STRING)], passes);
    put(list, "q-named-behind-with-two-mismatches", &one, &[l(STRING), n(Q, INT)], "0 0 1 07 2/17 1 1/17 2 2");
    put(list, "q-named-alone-without-p-does-not-fit", &one, &[n(Q, STRING)], "0 0 1 15 1/15 0 1");
}

fn repeated_names(list: &mut List) {
    list.of("a_name_given_twice_is_compared_twice_with_its_parameter");
    let same = overloads(&[&[p(P, INT), p(Q, INT)]]);
    put(list, "a-name-twice-and-the-second-differs", &same, &[n(P, INT), n(P, STRING)], "0 0 1 07 1/17 3 2");
    put(list, "a-name-twice-and-the-first-differs", &same, &[n(P, STRING), n(P, INT)], "0 0 1 07 1/17 1 1");
    put(list, "a-name-twice-and-both-differ", &same, &[n(P, STRING), n(P, STRING)], "0 0 1 07 2/17 1 1/17 3 2");
    put(list, "the-second-parameter-named-twice", &same, &[n(Q, INT), n(Q, INT)], "0 1 1 07 0");
    let three = overloads(&[&[p(P, INT), p(Q, STRING), flagged(Z, DEFAULT, BOOLEAN)]]);
    let mut of = |name: &str, args: &[Bytes], expected: &str| put(list, name, &three, args, expected);
    of("a-name-twice-leaves-the-next-parameter", &[n(P, INT), n(P, INT), l(STRING)], "0 1 1 07 0");
    of("a-name-twice-around-an-unnamed", &[n(P, INT), l(STRING), n(P, INT)], "0 1 1 07 0");
    let differ = [n(P, INT), n(P, STRING), l(BOOLEAN)];
    of("a-name-twice-and-an-unnamed-that-differs", &differ, "0 0 1 07 2/17 3 2/17 5 3");
    of("a-name-three-times", &[n(Q, STRING), n(Q, INT), n(Q, STRING)], "0 0 1 07 1/17 3 2");
    // 2, 2 and 1 against 1, 1 and 2.
    let far = overloads(&[
        &[p(P, LONG), p(Q, INT), flagged(Z, DEFAULT, INT)],
        &[p(P, INT), p(Q, LONG), flagged(Z, DEFAULT, INT)],
    ]);
    put(list, "a-name-twice-scores-twice", &far, &[n(P, INT), n(P, INT), l(INT)], "0 1 1 06 0");
}

fn unknown_names(list: &mut List) {
    list.of("an_unknown_name_takes_no_parameter_and_adds_no_mismatch");
    let single = overloads(&[&[p(P, INT)]]);
    put(list, "an-unknown-name-alone", &single, &[n(UNKNOWN, STRING)], "0 0 1 07 1/16 1 1");
    let one = overloads(&[&[p(P, INT), p(Q, STRING)]]);
    let mut of = |name: &str, args: &[Bytes], expected: &str| put(list, name, &one, args, expected);
    of("an-unknown-name-in-front-of-a-match", &[n(UNKNOWN, INT), l(INT)], "0 0 1 07 1/16 1 1");
    of("an-unknown-name-in-front-of-a-mismatch", &[n(UNKNOWN, INT), l(STRING)], "0 0 1 07 2/16 1 1/17 3 2");
    of("an-unknown-name-behind-a-mismatch", &[l(STRING), n(UNKNOWN, INT)], "0 0 1 07 2/16 2 2/17 1 1");
    of("two-unknown-names", &[n(UNKNOWN, STRING), n(T, STRING)], "0 0 1 07 2/16 1 1/16 3 2");
    of("an-unknown-name-twice", &[n(UNKNOWN, STRING), n(UNKNOWN, STRING)], "0 0 1 07 2/16 1 1/16 3 2");
    of("an-unknown-name-beside-a-name-that-differs", &[n(UNKNOWN, INT), n(Q, INT)], "0 0 1 07 2/16 1 1/17 3 2");
    of("an-unknown-name-beside-a-name-that-matches", &[n(Q, STRING), n(UNKNOWN, INT)], "0 0 1 07 1/16 3 2");
    let marked = overloads(&[&[p(P, INT), p(Q, STRING)], &[p(P, INT), p(Q, INT)]]);
    let behind = [l(INT), n(UNKNOWN, INT)];
    put(list, "an-unknown-name-of-two-overloads", &marked, &behind, "0 0 1 15 3/16 2 2/16 2 2/18 0 0");
    let other = overloads(&[&[p(P, INT), p(Q, STRING)], &[p(P, INT), p(Z, STRING)]]);
    put(list, "a-name-that-the-first-overload-lacks", &other, &[l(INT), n(Z, STRING)], "0 0 1 06 1/16 2 2");
    put(list, "a-name-that-the-second-overload-lacks", &other, &[l(INT), n(Q, STRING)], "0 0 1 07 1/16 2 2");
    let shorter = overloads(&[&[p(P, INT)], &[p(P, INT), p(Q, STRING)]]);
    put(list, "an-overload-that-does-not-fit-draws-no-16", &shorter, &behind, "0 0 1 06 1/16 2 2");
    let three = overloads(&[&[p(P, INT), p(Q, STRING), p(Z, BOOLEAN)]]);
    let between = [l(STRING), n(UNKNOWN, INT), l(STRING)];
    put(list, "an-unknown-name-between-two-unnamed", &three, &between, "0 0 1 07 2/16 2 2/17 1 1");
    let open = overloads(&[&[p(P, INT), flagged(Q, VARARG, STRING)]]);
    let many = [n(UNKNOWN, INT), l(STRING), l(BOOLEAN), l(BOOLEAN)];
    put(list, "an-unknown-name-beside-a-left-over-argument", &open, &many, "0 0 1 07 2/16 1 1/17 3 2");
}

fn left_over(list: &mut List) {
    list.of("an_argument_left_over_is_not_reported");
    let open = overloads(&[&[p(P, INT), flagged(Q, VARARG, STRING)]]);
    let passes = "0 1 1 07 0";
    let mut of = |name: &str, args: &[Bytes], expected: &str| put(list, name, &open, args, expected);
    of("none-left-over", &[l(INT), l(STRING)], passes);
    of("one-left-over", &[l(INT), l(STRING), l(STRING)], passes);
    of("left-over-of-other-types", &[l(INT), l(STRING), l(BOOLEAN), l(INT)], passes);
    of("one-left-over-behind-two-named", &[n(P, INT), n(Q, STRING), l(BOOLEAN)], passes);
    of("one-left-over-between-two-named", &[n(Q, STRING), l(BOOLEAN), n(P, INT)], "0 1 1 07 0");
    of("two-left-over-behind-a-named-vararg", &[n(Q, STRING), l(INT), l(BOOLEAN), l(CHAR)], passes);
    of("the-named-vararg-stands-at-the-end", &[l(INT), l(BOOLEAN), l(CHAR), n(Q, STRING)], passes);
    of("two-left-over-beside-a-mismatch", &[l(STRING), l(STRING), l(BOOLEAN), l(CHAR)], "0 0 1 07 1/17 1 1");
    let named_differs = [l(BOOLEAN), l(CHAR), n(P, STRING), n(Q, INT)];
    of("left-over-beside-a-name-that-differs", &named_differs, "0 0 1 07 1/17 3 3");
    of("a-left-over-any", &[l(INT), l(STRING), l(ANY)], passes);
    of("a-left-over-error-does-not-pass", &[l(INT), l(STRING), l(ERROR)], "0 0 1 07 0");
    let all = overloads(&[&[flagged(P, VARARG, INT)]]);
    put(list, "a-vararg-alone-and-no-argument", &all, &[], passes);
    put(list, "a-vararg-alone-and-16-arguments", &all, &vec![l(STRING); 16], passes);
    put(list, "a-vararg-alone-named-in-front", &all, &[n(P, INT), l(STRING), l(STRING)], passes);
    put(list, "a-vararg-alone-named-behind", &all, &[l(STRING), n(P, INT)], passes);
    put(list, "a-vararg-alone-named-twice", &all, &[n(P, STRING), n(P, STRING)], passes);
    let default = overloads(&[&[p(P, INT), flagged(Q, DEFAULT | VARARG, STRING)]]);
    put(list, "left-over-behind-a-default-vararg", &default, &[l(INT), l(INT), l(INT)], passes);
    let both = overloads(&[&[flagged(P, VARARG, INT), flagged(Q, VARARG, STRING)]]);
    put(list, "left-over-behind-two-varargs", &both, &[l(STRING), l(INT), l(BOOLEAN)], passes);
}

fn left_over_scores(list: &mut List) {
    list.of("an_argument_left_over_scores_1_whatever_its_type_is");
    let longer = overloads(&[&[p(P, INT), flagged(Q, VARARG, INT)], &[p(P, INT), p(Q, INT), flagged(Z, VARARG, INT)]]);
    // 5 against 6: not 2 for the vararg's own type.
    put(list, "left-over-of-the-varargs-type", &longer, &[l(INT), l(INT), l(INT)], "0 1 1 06 0");
    // 5 against 5: a vararg that is a parameter's own turn accepts with 1, too.
    put(list, "left-over-ties", &longer, &[l(INT), l(INT), l(STRING)], "0 0 1 07 1/19 0 2");
    // 6 against 6, with one left over in both.
    let four = [l(INT), l(INT), l(STRING), l(STRING)];
    put(list, "left-over-in-both", &longer, &four, "0 0 1 07 1/19 0 2");
    // 5 against 2 + 1 + 1.
    let closed = overloads(&[&[p(P, INT), p(Q, LONG), p(Z, ANY)], &[p(P, INT), flagged(Q, VARARG, INT)]]);
    put(list, "left-over-decides", &closed, &[l(INT), l(INT), l(STRING)], "0 1 1 06 0");
    // 2 + 2 + 1 against 2 + 1 + 2.
    let tie = overloads(&[&[p(P, INT), p(Q, LONG), p(Z, STRING)], &[p(P, INT), flagged(Q, VARARG, INT)]]);
    put(list, "left-over-decides-a-tie", &tie, &[l(INT), l(INT), l(STRING)], "0 0 1 07 1/19 0 2");
    // 2 + 1 + 1 for Any in the vararg's place and left over, against 2 + 1 + 1.
    put(list, "left-over-any-scores-1", &tie, &[l(INT), l(ANY), l(ANY)], "0 0 1 07 1/19 0 2");
    // By name: 2 + 2 + 1 against 2 + 2 + 2.
    let by_name = [n(P, INT), n(Q, INT), l(INT)];
    put(list, "left-over-behind-names", &longer, &by_name, "0 1 1 06 0");
    // 2 + 1 and five times 1; the second overload's q takes no String.
    let six = [&[l(INT)][..], &vec![l(STRING); 6]].concat();
    put(list, "five-left-over", &longer, &six, "0 1 1 07 0");
}

fn varargs_before_the_last(list: &mut List) {
    list.of("a_vararg_that_is_not_last_takes_one_argument_and_lifts_no_limit");
    let passes = "0 1 1 07 0";
    let front = overloads(&[&[flagged(P, VARARG, INT), p(Q, STRING)]]);
    let mut of = |name: &str, args: &[Bytes], expected: &str| put(list, name, &front, args, expected);
    of("a-vararg-in-front-takes-one", &[l(INT), l(STRING)], passes);
    of("a-vararg-in-front-takes-another-type", &[l(STRING), l(STRING)], passes);
    of("a-vararg-in-front-does-not-take-the-second", &[l(INT), l(INT)], "0 0 1 07 1/17 2 2");
    of("a-vararg-in-front-lifts-no-limit", &[l(INT), l(INT), l(STRING)], "0 0 1 15 1/15 0 3");
    of("a-vararg-in-front-takes-the-only-argument", &[l(BOOLEAN)], passes);
    of("behind-a-vararg-by-name-alone", &[n(Q, STRING)], passes);
    of("a-vararg-in-front-behind-a-name", &[n(Q, STRING), l(BOOLEAN)], passes);
    of("a-vararg-in-front-named-behind", &[l(STRING), n(P, BOOLEAN)], passes);
    of("a-vararg-in-front-named-and-the-other-differs", &[l(INT), n(P, BOOLEAN)], "0 0 1 07 1/17 1 1");
    let middle = overloads(&[&[p(P, INT), flagged(Q, VARARG, INT), p(Z, STRING)]]);
    put(list, "a-vararg-in-the-middle-takes-one", &middle, &[l(INT), l(INT), l(STRING)], passes);
    put(list, "a-vararg-in-the-middle-is-not-skipped", &middle, &[l(INT), l(STRING)], passes);
    let differs = [l(INT), l(STRING), l(INT)];
    put(list, "a-vararg-in-the-middle-and-the-last-differs", &middle, &differs, "0 0 1 07 1/17 3 3");
    // 2 + 2 against 1 + 2, and 1 + 2 against 1 + 2.
    let two = overloads(&[&[flagged(P, VARARG, INT), p(Q, STRING)], &[flagged(P, VARARG, LONG), p(Q, STRING)]]);
    put(list, "a-vararg-in-front-of-its-own-type-wins", &two, &[l(INT), l(STRING)], passes);
    put(list, "a-vararg-in-front-accepts-in-both", &two, &[l(CHAR), l(STRING)], "0 0 1 07 1/19 0 2");
}

fn defaults(list: &mut List) {
    list.of("defaults_are_not_skipped");
    let passes = "0 1 1 07 0";
    let front = overloads(&[&[flagged(P, DEFAULT, INT), p(Q, STRING)]]);
    let mut of = |name: &str, args: &[Bytes], expected: &str| put(list, name, &front, args, expected);
    of("a-default-in-front-takes-the-only-argument", &[l(INT)], passes);
    of("a-default-in-front-is-not-skipped", &[l(STRING)], "0 0 1 07 1/17 1 1");
    of("behind-a-default-by-name", &[n(Q, STRING)], passes);
    of("a-default-in-front-named-behind", &[l(STRING), n(P, INT)], passes);
    of("a-default-in-front-and-both-given", &[l(INT), l(STRING)], passes);
    of("a-default-in-front-and-both-differ", &[l(STRING), l(INT)], "0 0 1 07 2/17 1 1/17 2 2");
    let middle = overloads(&[&[p(P, INT), flagged(Q, DEFAULT, STRING), p(Z, BOOLEAN)]]);
    put(list, "a-default-in-the-middle-is-not-skipped", &middle, &[l(INT), l(BOOLEAN)], "0 0 1 07 1/17 2 2");
    put(list, "a-default-in-the-middle-left-out-by-name", &middle, &[l(INT), n(Z, BOOLEAN)], passes);
    let behind = overloads(&[&[p(P, INT), flagged(Q, DEFAULT, STRING), flagged(Z, DEFAULT, BOOLEAN)]]);
    put(list, "two-defaults-taken-in-turn", &behind, &[l(INT), l(STRING), l(BOOLEAN)], passes);
    put(list, "the-first-of-two-defaults-is-not-skipped", &behind, &[l(INT), l(BOOLEAN)], "0 0 1 07 1/17 2 2");
    put(list, "the-last-default-named-in-front", &behind, &[n(Z, BOOLEAN), l(INT), l(STRING)], passes);
    let two = overloads(&[&[flagged(P, DEFAULT, INT), p(Q, STRING)], &[p(P, STRING)]]);
    put(list, "a-default-in-front-loses-the-overload", &two, &[l(STRING)], "0 1 1 06 0");
}

fn any_and_error(list: &mut List) {
    list.of("any_and_error_are_no_mismatch");
    let one = overloads(&[&[p(P, INT), p(Q, STRING)]]);
    let mut of = |name: &str, args: [Bytes; 2], expected: &str| put(list, name, &one, &args, expected);
    of("two-any-arguments-match", [l(ANY), l(ANY)], "0 1 1 07 0");
    of("two-error-arguments-are-silent", [l(ERROR), l(ERROR)], "0 0 1 07 0");
    of("an-any-before-a-mismatch", [l(ANY), l(INT)], "0 0 1 07 1/17 2 2");
    of("an-error-before-a-mismatch", [l(ERROR), l(INT)], "0 0 1 07 1/17 2 2");
    of("an-any-behind-a-mismatch", [l(STRING), l(ANY)], "0 0 1 07 1/17 1 1");
    of("an-error-behind-a-mismatch", [l(STRING), l(ERROR)], "0 0 1 07 1/17 1 1");
    of("a-named-any-before-a-mismatch", [n(Q, ANY), l(STRING)], "0 0 1 07 1/17 3 2");
    of("a-named-error-behind-a-mismatch", [l(STRING), n(Q, ERROR)], "0 0 1 07 1/17 1 1");
    of("a-null-matches-its-own-parameter", [leaf(&nullable(&t(NOTHING))), l(STRING)], "0 1 1 07 0");
    let single = overloads(&[&[p(P, INT)]]);
    put(list, "an-any-argument-alone", &single, &[l(ANY)], "0 1 1 07 0");
    put(list, "an-error-argument-alone", &single, &[l(ERROR)], "0 0 1 07 0");
    let any = overloads(&[&[p(P, ANY), p(Q, STRING)]]);
    put(list, "an-any-parameter-takes-its-own-argument", &any, &[l(INT), l(STRING)], "0 1 1 07 0");
    put(list, "an-any-parameter-before-a-mismatch", &any, &[l(BOOLEAN), l(INT)], "0 0 1 07 1/17 2 2");
    put(list, "an-any-parameter-by-name-before-a-mismatch", &any, &[l(INT), n(P, INT)], "0 0 1 07 1/17 1 1");
    let mut letter = base();
    letter.plain(F, &[CHAR], &[(P, 0, named(T)), p(Q, STRING)]);
    put(list, "a-type-variable-before-a-mismatch", &letter, &[l(INT), l(INT)], "0 0 1 07 1/17 2 2");
    put(list, "a-type-variable-takes-its-own-argument", &letter, &[l(INT), l(STRING)], "0 1 1 07 0");
}

fn order_of_mismatches(list: &mut List) {
    list.of("mismatches_come_in_argument_order_at_their_own_nodes");
    let three = overloads(&[&[p(P, INT), p(Q, STRING), p(Z, BOOLEAN)]]);
    let between = [l(STRING), n(Z, INT), l(BOOLEAN)];
    put(list, "a-named-mismatch-between-two-unnamed", &three, &between, "0 0 1 07 3/17 1 1/17 2 2/17 4 3");
    let before = [n(Z, INT), n(P, STRING), l(INT)];
    put(list, "an-unnamed-mismatch-behind-two-named", &three, &before, "0 0 1 07 3/17 1 1/17 3 2/17 5 3");
    let behind = [l(BOOLEAN), n(Z, INT), n(P, STRING)];
    put(list, "two-named-mismatches-behind-an-unnamed", &three, &behind, "0 0 1 07 3/17 1 1/17 2 2/17 4 3");
    let strings = overloads(&[&[p(P, STRING), p(Q, STRING)]]);
    let sum = binary(ADD, &l(INT), &l(INT));
    put(list, "a-mismatch-behind-a-longer-argument", &strings, &[sum, l(INT)], "0 0 1 07 2/17 1 1/17 4 2");
    let one = overloads(&[&[p(P, INT), p(Q, STRING)]]);
    let inner = call(F, &[l(INT), l(INT)]);
    put(list, "an-argument-with-a-mismatch-of-its-own", &one, &[inner, l(STRING)], "0 0 1 07 2/17 3 2/17 1 1");
    let value = named_arg(Q, &call(F, &[l(STRING), l(STRING)]));
    put(list, "a-named-argument-with-a-mismatch-of-its-own", &one, &[value, l(INT)], "0 0 1 07 2/17 3 1/17 1 1");
    // Every 16 of the fitting overload comes first.
    let mixed = [l(STRING), n(UNKNOWN, INT), n(Q, INT)];
    let late = "0 0 1 07 3/16 2 2/17 1 1/17 4 3";
    put(list, "an-unknown-name-between-two-mismatches", &three, &mixed, late);
}

fn sixteen(list: &mut List) {
    list.of("sixteen_arguments_take_sixteen_parameters");
    let kind = |i: u16| [INT, STRING][i as usize % 2];
    let params: Vec<Param> = (0..16).map(|i| p(i, kind(i))).collect();
    let table = overloads(&[&params]);
    let args = |wrong: Option<u16>| -> Vec<Bytes> {
        (0..16).map(|i| l(if Some(i) == wrong { BOOLEAN } else { kind(i) })).collect()
    };
    put(list, "sixteen-unnamed", &table, &args(None), "0 1 1 07 0");
    for i in 0..16 {
        let expected = format!("0 0 1 07 1/17 {} {}", i + 1, i + 1);
        put(list, &format!("sixteen-unnamed-and-number-{}-differs", i + 1), &table, &args(Some(i)), &expected);
    }
    let turned: Vec<Bytes> = (0..16).map(|i| l(kind(i + 1))).collect();
    let all: Vec<String> = (1..=16).map(|i| format!("/17 {} {}", i, i)).collect();
    put(list, "sixteen-unnamed-that-differ", &table, &turned, &format!("0 0 1 07 16{}", all.concat()));
    // The first parameter named at the end: each of the others takes the next.
    let mut later: Vec<Bytes> = (1..16).map(|i| l(kind(i))).collect();
    later.push(n(0, kind(0)));
    put(list, "fifteen-unnamed-before-the-first-by-name", &table, &later, "0 1 1 07 0");
    let mut earlier = vec![n(15, kind(15))];
    earlier.extend((0..15).map(|i| l(kind(i))));
    put(list, "fifteen-unnamed-behind-the-last-by-name", &table, &earlier, "0 1 1 07 0");
    let by_name: Vec<Bytes> = (0..16).rev().map(|i| n(i, kind(i))).collect();
    put(list, "sixteen-named-from-the-last", &table, &by_name, "0 1 1 07 0");
    let every_other: Vec<Bytes> = (0..16).map(|i| if i % 2 == 1 { n(i, kind(i)) } else { l(kind(i)) }).collect();
    put(list, "eight-unnamed-between-eight-named", &table, &every_other, "0 1 1 07 0");
}

fn methods(list: &mut List) {
    list.of("a_method_call_takes_its_arguments_as_a_call_does");
    let owned = |lists: &[&[Param]], visibility: u8| {
        let mut table = base();
        for (params, result) in lists.iter().zip([CHAR, BOOLEAN]) {
            table.function(A, F, visibility, false, &[result], params);
        }
        table
    };
    let put = |list: &mut List, name: &str, table: &Table, args: &[Bytes], expected: &str| {
        list.tree(&format!("order4.method-{}", name), table, method(F, &leaf(&named(A)), args), expected);
    };
    let one = owned(&[&[p(P, INT), p(Q, STRING)]], 0);
    put(list, "two-unnamed-take-two-parameters", &one, &[l(INT), l(STRING)], "0 1 1 07 0");
    put(list, "two-unnamed-that-differ", &one, &[l(STRING), l(INT)], "0 0 1 07 2/17 2 1/17 3 2");
    put(list, "named-q-int-then-string", &one, &[n(Q, INT), l(STRING)], "0 0 1 07 2/17 2 1/17 4 2");
    put(list, "named-q-string-then-int", &one, &[n(Q, STRING), l(INT)], "0 1 1 07 0");
    put(list, "an-unknown-name", &one, &[n(Z, INT), l(INT)], "0 0 1 07 1/16 2 1");
    let marked = owned(&[&[p(P, INT), p(Q, STRING)], &[p(P, INT), p(Q, INT)]], 0);
    put(list, "two-overloads-called-int-string", &marked, &[l(INT), l(STRING)], "0 1 1 07 0");
    put(list, "two-overloads-called-int-int", &marked, &[l(INT), l(INT)], "0 1 1 06 0");
    put(list, "two-overloads-called-string-int", &marked, &[l(STRING), l(INT)], "0 0 1 15 1/18 0 0");
    let open = owned(&[&[flagged(P, VARARG, INT)]], 0);
    put(list, "left-over", &open, &[l(STRING), l(BOOLEAN), l(CHAR)], "0 1 1 07 0");
    let private = owned(&[&[p(P, INT), p(Q, STRING)]], 3);
    put(list, "access-comes-first", &private, &[l(STRING), l(INT)], "0 0 1 07 3/20 0 3/17 2 1/17 3 2");
}

fn builtins(list: &mut List) {
    list.of("builtins_take_their_arguments_alike");
    let mut beside = base();
    beside.function(NONE, F, 0, true, &[CHAR], &[p(P, INT), p(Q, STRING)]);
    beside.plain(F, &[BOOLEAN], &[p(P, STRING), p(Q, INT)]);
    let two = [l(INT), l(STRING)];
    put(list, "a-builtin-that-would-match-drops-out", &beside, &two, "0 0 1 06 2/17 1 1/17 2 2");
    put(list, "beside-a-builtin-the-other-matches", &beside, &[l(STRING), l(INT)], "0 1 1 06 0");
    let mut alone = base();
    alone.function(NONE, F, 0, true, &[CHAR], &[p(P, INT), p(Q, STRING)]);
    put(list, "a-builtin-alone-matches", &alone, &two, "0 1 1 07 0");
    put(list, "a-builtin-alone-and-the-second-differs", &alone, &[l(INT), l(INT)], "0 0 1 07 1/17 2 2");
    put(list, "a-builtin-alone-by-name", &alone, &[l(INT), n(Q, STRING)], "0 1 1 07 0");
    alone.function(NONE, F, 0, true, &[BOOLEAN], &[p(P, INT), p(Q, INT)]);
    put(list, "two-builtins-called-int-string", &alone, &two, "0 1 1 07 0");
    put(list, "two-builtins-called-int-int", &alone, &[l(INT), l(INT)], "0 1 1 06 0");
}

fn several_overloads(list: &mut List) {
    list.of("where_several_fit_and_none_matches_there_is_one_report");
    let crossed = overloads(&[&[p(P, INT), p(Q, STRING)], &[p(P, STRING), p(Q, INT)]]);
    put(list, "two-overloads-and-neither-matches", &crossed, &[l(BOOLEAN), l(BOOLEAN)], "0 0 1 15 1/18 0 0");
    put(list, "two-overloads-and-neither-matches-by-name", &crossed, &[n(P, INT), n(Q, INT)], "0 0 1 15 1/18 0 0");
    let shorter = overloads(&[&[p(P, INT)], &[p(P, INT), p(Q, STRING)]]);
    put(list, "one-of-two-fits-and-differs", &shorter, &[l(INT), l(INT)], "0 0 1 06 1/17 2 2");
    put(list, "one-of-two-fits-and-matches", &shorter, &[l(INT), l(STRING)], "0 1 1 06 0");
    let open = overloads(&[&[p(P, INT)], &[p(P, STRING), flagged(Q, VARARG, INT)]]);
    put(list, "two-fit-and-neither-takes-the-first", &open, &[l(BOOLEAN)], "0 0 1 15 1/18 0 0");
    put(list, "the-vararg-alone-fits-and-differs", &open, &[l(INT), l(INT), l(INT)], "0 0 1 06 1/17 1 1");
    let three = overloads(&[&[p(P, INT), p(Q, INT)], &[p(P, STRING), p(Q, INT)], &[p(P, STRING), p(Q, STRING)]]);
    put(list, "the-last-of-three", &three, &[l(STRING), l(STRING)], "0 1 1 05 0");
    put(list, "the-middle-of-three", &three, &[l(STRING), l(INT)], "0 1 1 06 0");
    put(list, "none-of-three", &three, &[l(INT), l(STRING)], "0 0 1 15 1/18 0 0");
    let same = overloads(&[&[p(P, INT), p(Q, STRING)], &[p(Q, STRING), p(P, INT)]]);
    put(list, "the-same-names-in-the-other-order", &same, &[l(INT), l(STRING)], "0 1 1 07 0");
    put(list, "the-same-names-in-the-other-order-by-name", &same, &[n(Q, STRING), l(INT)], "0 0 1 07 1/19 0 2");
}
