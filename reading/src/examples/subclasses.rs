//! Document 02, order 2: "Named A now assigns to Named B if B is met climbing from A, at every depth where assignability
//! compares types. Overloads, comparisons and clean rules take the new rule". The marked case stands with document 01's.

use super::{base, l, t, List, A, ASSIGNS, B, C, DIFFERS, F, P, Q, T, Z};
use crate::bytes::*;
use crate::name::{built_in, NONE};

const LIST_NAME: u16 = 1;
const ARRAY_LIST: u16 = 2;
const MUTABLE_LIST: u16 = 3;

pub fn add(list: &mut List) {
    climbs(list);
    climbs_of_every_record(list);
    letters(list);
    list_names(list);
    depths(list);
    whole_types(list);
    overloads(list);
    calls_of_one_overload(list);
    comparisons(list);
    other_climbs(list);
}

/// A below B below C, and Z with a record of its own.
fn chain() -> Table {
    let mut table = base();
    table.class(C, NONE, NONE, true);
    table.class(B, C, NONE, true);
    table.class(A, B, NONE, true);
    table.class(Z, NONE, NONE, true);
    table
}

/// Whether a type goes where another is expected: one overload f(p: `to`): Boolean, called with a leaf.
fn goes(list: &mut List, name: &str, table: &Table, from: &[u8], to: &[u8], expected: &str) {
    let mut table = table.clone();
    table.plain(F, &[BOOLEAN], &[(P, 0, to.to_vec())]);
    list.tree(&format!("order2.{}", name), &table, call(F, &[leaf(from)]), expected);
}

fn climbs(list: &mut List) {
    list.of("named_a_assigns_to_named_b_if_b_is_met_climbing_from_a");
    let of = |list: &mut List, name: &str, from: u16, to: u16, expected: &str| {
        goes(list, name, &chain(), &named(from), &named(to), expected);
    };
    of(list, "a-class-assigns-to-its-superclass", A, B, ASSIGNS);
    of(list, "a-class-assigns-to-the-class-two-steps-up", A, C, ASSIGNS);
    of(list, "the-class-in-the-middle-assigns-to-the-top", B, C, ASSIGNS);
    of(list, "a-superclass-does-not-assign-to-its-class", B, A, DIFFERS);
    of(list, "the-top-does-not-assign-to-the-lowest-class", C, A, DIFFERS);
    of(list, "a-class-assigns-to-itself", A, A, ASSIGNS);
    of(list, "a-class-does-not-assign-to-an-unrelated-one", A, Z, DIFFERS);
    of(list, "an-unrelated-class-does-not-assign-to-the-top", Z, C, DIFFERS);
    let mut siblings = base();
    siblings.class(C, NONE, NONE, true);
    siblings.class(B, C, NONE, true);
    siblings.class(A, C, NONE, true);
    goes(list, "two-classes-below-one-are-unrelated", &siblings, &named(A), &named(B), DIFFERS);
    goes(list, "each-of-two-classes-below-one-assigns-to-it", &siblings, &named(B), &named(C), ASSIGNS);
}

/// Every class record climbs, in `types` or not; a superclass without a record is met, and the climb ends there.
fn climbs_of_every_record(list: &mut List) {
    list.of("every_class_record_climbs_and_a_superclass_without_a_record_is_met");
    for (name, flags) in [
        ("a-class-outside-types-climbs", [false, true, true]),
        ("a-class-outside-types-is-climbed-through", [true, false, true]),
        ("a-class-outside-types-is-met", [true, true, false]),
        ("classes-outside-types-are-related", [false, false, false]),
    ] {
        let mut table = base();
        for (class, superclass, flag) in [(C, NONE, flags[2]), (B, C, flags[1]), (A, B, flags[0])] {
            table.class(class, superclass, NONE, flag);
        }
        goes(list, name, &table, &named(A), &named(C), ASSIGNS);
    }
    let mut bare = base();
    bare.class(C, NONE, NONE, true);
    bare.class(A, B, NONE, true);
    goes(list, "a-superclass-without-a-record-is-met", &bare, &named(A), &named(B), ASSIGNS);
    goes(list, "the-climb-ends-at-a-class-without-a-record", &bare, &named(A), &named(C), DIFFERS);
    goes(list, "a-class-without-a-record-does-not-climb", &bare, &named(B), &named(C), DIFFERS);
    goes(list, "a-class-without-a-record-does-not-go-down", &bare, &named(B), &named(A), DIFFERS);
    bare.class(Z, A, NONE, true);
    goes(list, "a-superclass-without-a-record-is-met-two-steps-up", &bare, &named(Z), &named(B), ASSIGNS);
    let mut none = base();
    none.class(B, NONE, NONE, true);
    none.class(A, NONE, NONE, true);
    goes(list, "65535-is-no-superclass", &none, &named(A), &named(B), DIFFERS);
    let mut built = base();
    built.class(A, built_in("Set"), NONE, true);
    goes(list, "a-built-in-name-is-met", &built, &named(A), &named(built_in("Set")), ASSIGNS);
}

/// Names of one capital letter: type variables outside `types`, classes as any inside.
fn letters(list: &mut List) {
    list.of("a_name_of_one_capital_letter_climbs_as_any_class_does");
    for (name, flag) in [("in", true), ("outside", false)] {
        let mut table = base();
        table.class(B, NONE, NONE, true);
        table.class(T, B, NONE, flag);
        table.class(A, T, NONE, true);
        let put = |list: &mut List, what: &str, from: u16, to: u16, expected: &str| {
            goes(list, &format!("{}-{}-types", what, name), &table, &named(from), &named(to), expected);
        };
        put(list, "one-capital-letter-assigns-to-its-superclass", T, B, ASSIGNS);
        put(list, "a-climb-through-one-capital-letter", A, B, ASSIGNS);
        put(list, "a-class-below-one-capital-letter", A, T, ASSIGNS);
        // Outside `types` the parameter is a type variable, which takes every type.
        put(list, "a-superclass-where-one-capital-letter-is-expected", B, T, if flag { DIFFERS } else { ASSIGNS });
        let eq = binary(EQ, &leaf(&named(Z)), &leaf(&named(T)));
        list.tree(&format!("order2.unrelated-to-one-capital-letter-{}-types", name), &table, eq, "0 0 1 06 1/4 0 0");
    }
    let mut bare = base();
    bare.class(A, T, NONE, true);
    let eq = binary(EQ, &leaf(&named(A)), &leaf(&named(T)));
    list.tree("order2.one-capital-letter-without-a-record-is-met-in-a-comparison", &bare, eq, "0 1 1 06 0");
}

/// The list names' rules are as they were, and are not asked again for a class that is met.
fn list_names(list: &mut List) {
    list.of("the_list_names_rules_are_not_asked_again_for_a_class_that_is_met");
    let of_int = crate::bytes::list(&t(INT));
    let ints = array(None, &t(INT));
    for (name, id, other) in [
        ("list", LIST_NAME, ARRAY_LIST),
        ("array-list", ARRAY_LIST, MUTABLE_LIST),
        ("mutable-list", MUTABLE_LIST, LIST_NAME),
    ] {
        let mut table = base();
        table.class(B, NONE, NONE, true);
        table.class(id, B, NONE, true);
        table.class(A, id, NONE, true);
        let put = |list: &mut List, what: &str, from: &[u8], to: &[u8], expected: &str| {
            goes(list, &what.replace("NAME", name), &table, from, to, expected);
        };
        put(list, "named-NAME-assigns-to-its-superclass", &named(id), &named(B), ASSIGNS);
        put(list, "a-class-below-named-NAME-assigns-to-it", &named(A), &named(id), ASSIGNS);
        put(list, "a-class-below-named-NAME-climbs-on", &named(A), &named(B), ASSIGNS);
        put(list, "a-class-below-named-NAME-is-no-list-name", &named(A), &named(other), DIFFERS);
        put(list, "a-class-below-named-NAME-does-not-assign-to-a-list", &named(A), &of_int, DIFFERS);
        put(list, "a-class-below-named-NAME-does-not-assign-to-an-array", &named(A), &ints, DIFFERS);
        put(list, "a-list-does-not-assign-to-a-class-below-named-NAME", &of_int, &named(A), DIFFERS);
        put(list, "a-list-does-not-assign-to-the-superclass-of-named-NAME", &of_int, &named(B), DIFFERS);
        put(list, "another-list-name-does-not-climb-from-NAME", &named(other), &named(B), DIFFERS);
        put(list, "named-NAME-with-a-record-is-still-a-list-name", &named(id), &named(other), ASSIGNS);
        put(list, "another-list-name-still-assigns-to-named-NAME", &named(other), &named(id), ASSIGNS);
    }
}

/// The wrappings of a class through which assignability asks itself, as pairs of wrappings: left and right.
fn wrappings() -> Vec<(&'static str, fn(&[u8]) -> Bytes, fn(&[u8]) -> Bytes)> {
    let of = crate::bytes::list;
    vec![
        ("array-to-array", |x| array(None, x), |x| array(None, x)),
        ("array-to-array-of-another-size", |x| array(Some(3), x), |x| array(Some(4), x)),
        ("array-of-array", |x| array(None, &array(None, x)), |x| array(None, &array(Some(2), x))),
        ("list-to-array", of, |x| array(None, x)),
        ("list-of-list-to-array-of-array", |x| list(&list(x)), |x| array(None, &array(None, x))),
        ("nullable-on-the-left", nullable, |x| x.to_vec()),
        ("nullable-on-the-right", |x| x.to_vec(), nullable),
        ("nullable-on-both-sides", nullable, nullable),
        ("two-nullables-on-the-left", |x| nullables(2, x), |x| x.to_vec()),
        ("nullable-of-array", |x| nullable(&array(None, x)), |x| nullable(&array(None, x))),
        ("array-of-nullable", |x| array(None, &nullable(x)), |x| array(None, &nullable(x))),
        ("array-to-array-of-nullable", |x| array(None, x), |x| array(None, &nullable(x))),
        ("nullable-list-to-array", |x| nullable(&list(x)), |x| array(None, x)),
        ("list-to-nullable-array-of-nullable", of, |x| nullable(&array(None, &nullable(x)))),
    ]
}

fn depths(list: &mut List) {
    list.of("at_every_depth_where_assignability_compares_types");
    for (name, left, right) in wrappings() {
        for (steps, from, to, expected) in
            [("up", A, B, ASSIGNS), ("two-up", A, C, ASSIGNS), ("down", B, A, DIFFERS), ("aside", A, Z, DIFFERS)]
        {
            let (from, to) = (left(&named(from)), right(&named(to)));
            goes(list, &format!("{}-{}", name, steps), &chain(), &from, &to, expected);
        }
    }
    let deep = |class: u16| nullables(189, &named(class));
    goes(list, "under-189-nullables-up", &chain(), &deep(A), &deep(C), ASSIGNS);
    goes(list, "under-189-nullables-down", &chain(), &deep(C), &deep(A), DIFFERS);
}

/// Pointer, Map and Function types are still compared whole; a List goes to every List as before.
fn whole_types(list: &mut List) {
    list.of("pointer_map_and_function_types_are_compared_whole");
    let wraps: [(&str, fn(&[u8]) -> Bytes); 8] = [
        ("pointer", pointer),
        ("map-by-key", |x| map(x, &[INT])),
        ("map-by-value", |x| map(&[INT], x)),
        ("function-by-parameter", |x| function(&[x], &[UNIT])),
        ("function-by-result", |x| function(&[], x)),
        ("array-of-pointer", |x| array(None, &pointer(x))),
        ("nullable-pointer", |x| nullable(&pointer(x))),
        ("pointer-to-array", |x| pointer(&array(None, x))),
    ];
    for (name, wrap) in wraps {
        let (below, above) = (wrap(&named(A)), wrap(&named(B)));
        goes(list, &format!("{}-of-a-class-not-to-its-superclass", name), &chain(), &below, &above, DIFFERS);
        goes(list, &format!("{}-of-a-superclass-not-to-its-class", name), &chain(), &above, &below, DIFFERS);
        goes(list, &format!("{}-of-a-class-to-the-same", name), &chain(), &below, &below, ASSIGNS);
    }
    let of = crate::bytes::list;
    goes(list, "a-list-of-a-class-to-a-list-of-its-superclass", &chain(), &of(&named(A)), &of(&named(B)), ASSIGNS);
    goes(list, "a-list-of-a-superclass-to-a-list-of-its-class", &chain(), &of(&named(B)), &of(&named(A)), ASSIGNS);
    goes(list, "an-array-of-a-class-not-to-a-list", &chain(), &array(None, &named(A)), &of(&named(B)), DIFFERS);
    goes(list, "a-module-does-not-climb", &chain(), &module(A), &module(B), DIFFERS);
    goes(list, "a-module-is-no-class", &chain(), &module(A), &named(B), DIFFERS);
    goes(list, "a-class-is-no-module", &chain(), &named(A), &module(B), DIFFERS);
}

fn overloads(list: &mut List) {
    list.of("overloads_take_the_new_rule_and_a_subclass_match_scores_1");
    // f(p: first): Char, f(p: second): Boolean, called with a leaf of class A.
    let two = |list: &mut List, name: &str, first: &[u8], second: &[u8], expected: &str| {
        let mut table = chain();
        table.plain(F, &[CHAR], &[(P, 0, first.to_vec())]);
        table.plain(F, &[BOOLEAN], &[(P, 0, second.to_vec())]);
        list.tree(&format!("order2.{}", name), &table, call(F, &[leaf(&named(A))]), expected);
        let by_name = call(F, &[named_arg(P, &leaf(&named(A)))]);
        list.tree(&format!("order2.{}-by-name", name), &table, by_name, expected);
    };
    let (a, b, c, z) = (named(A), named(B), named(C), named(Z));
    two(list, "an-overload-is-chosen-through-a-superclass", &b, &z, "0 1 1 07 0");
    two(list, "the-second-overload-is-chosen-through-a-superclass", &t(INT), &c, "0 1 1 06 0");
    two(list, "the-class-itself-beats-its-superclass", &b, &a, "0 1 1 06 0");
    two(list, "the-class-itself-beats-its-superclass-from-in-front", &a, &b, "0 1 1 07 0");
    two(list, "any-ties-with-a-superclass", &b, &t(ANY), "0 0 1 07 1/19 0 2");
    two(list, "a-type-variable-ties-with-a-superclass", &named(T), &b, "0 0 1 07 1/19 0 2");
    two(list, "nullable-of-the-class-ties-with-a-superclass", &nullable(&a), &c, "0 0 1 07 1/19 0 2");
    two(list, "the-nearest-superclass-does-not-win", &c, &b, "0 0 1 07 1/19 0 2");
    two(list, "neither-of-two-unrelated-classes-matches", &z, &pointer(&b), "0 0 1 15 1/18 0 0");
    let mut table = chain();
    table.plain(F, &[CHAR], &[(P, 0, named(B)), (Q, 0, t(LONG))]);
    table.plain(F, &[BOOLEAN], &[(P, 0, named(C)), (Q, 0, t(INT))]);
    let both = call(F, &[named_arg(P, &leaf(&named(A))), named_arg(Q, &l(INT))]);
    list.tree("order2.two-subclass-matches-are-parted-by-another-argument", &table, both, "0 1 1 06 0");
    let mut table = chain();
    table.function(NONE, F, 0, true, &[CHAR], &[(P, 0, named(A))]);
    table.plain(F, &[BOOLEAN], &[(P, 0, named(B))]);
    let tree = call(F, &[leaf(&named(A))]);
    list.tree("order2.a-builtin-of-the-class-itself-drops-out", &table, tree, "0 1 1 06 0");
}

fn calls_of_one_overload(list: &mut List) {
    list.of("calls_of_one_overload_take_the_new_rule");
    let mut one = chain();
    one.plain(F, &[CHAR], &[(P, 0, t(INT)), (Q, 0, named(B))]);
    let up = call(F, &[l(INT), leaf(&named(A))]);
    list.tree("order2.the-second-parameter-takes-a-subclass", &one, up, "0 1 1 07 0");
    let down = call(F, &[l(INT), leaf(&named(C))]);
    list.tree("order2.the-second-parameter-does-not-take-a-superclass", &one, down, "0 0 1 07 1/17 2 2");
    let mut same = chain();
    same.plain(F, &[CHAR], &[(P, 0, named(C)), (Q, 0, named(A))]);
    let tree = call(F, &[leaf(&named(B)), leaf(&named(A))]);
    list.tree("order2.both-unnamed-match-their-own-parameters", &same, tree, "0 1 1 07 0");
    let tree = call(F, &[leaf(&named(A)), leaf(&named(B))]);
    list.tree("order2.both-unnamed-would-match-the-top", &same, tree, "0 0 1 07 1/17 2 2");
    let mut owned = chain();
    owned.function(Z, F, 0, false, &named(A), &[(P, 0, named(B))]);
    let on = |argument: u16| method(F, &leaf(&named(Z)), &[leaf(&named(argument))]);
    list.tree("order2.a-method-takes-a-subclass", &owned, on(A), "0 1 3 112b00 0");
    list.tree("order2.a-method-does-not-take-a-superclass", &owned, on(C), "0 0 3 112b00 1/17 2 1");
    let twice = method(F, &leaf(&named(Z)), &[on(A)]);
    list.tree("order2.a-result-goes-where-its-superclass-is-expected", &owned, twice, "0 1 3 112b00 0");
    let mut field = chain();
    field.field(Z, Q, &nullable(&named(A)));
    field.plain(F, &[CHAR], &[(P, 0, named(C))]);
    let of_field = call(F, &[member(Q, &leaf(&named(Z)))]);
    list.tree("order2.a-field-goes-where-its-superclass-is-expected", &field, of_field, "0 1 1 07 0");
    let no_method = method(F, &leaf(&named(A)), &[l(INT)]);
    let mut above = chain();
    above.function(B, F, 0, false, &[CHAR], &[]);
    list.tree("order2.a-method-of-the-superclass-is-still-not-found", &above, no_method, "0 1 1 09 0");
}

fn comparisons(list: &mut List) {
    list.of("comparisons_take_the_new_rule_in_both_directions");
    let (a, b) = (named(A), named(B));
    let clean = "0 1 1 06 0";
    let unrelated = "0 0 1 06 1/4 0 0";
    let both = |list: &mut List, name: &str, left: &[u8], right: &[u8], expected: &str| {
        for (what, op) in [("eq", EQ), ("ne", EQ + 1)] {
            let put = |list: &mut List, way: &str, left: &[u8], right: &[u8]| {
                let tree = binary(op, &leaf(left), &leaf(right));
                list.tree(&format!("order2.{}-{}-{}", what, name, way), &chain(), tree, expected);
            };
            put(list, "forth", left, right);
            put(list, "back", right, left);
        }
    };
    both(list, "a-class-and-its-superclass", &a, &b, clean);
    both(list, "a-class-and-the-class-two-steps-up", &a, &named(C), clean);
    both(list, "a-nullable-class-and-its-superclass", &nullable(&a), &b, clean);
    both(list, "a-list-and-an-array-of-its-superclass", &crate::bytes::list(&a), &array(None, &b), clean);
    both(list, "an-array-and-an-array-of-its-superclass", &array(Some(2), &a), &array(None, &b), clean);
    both(list, "unrelated-classes", &a, &named(Z), unrelated);
    both(list, "pointers-to-a-class-and-its-superclass", &pointer(&a), &pointer(&b), unrelated);
    both(list, "maps-of-a-class-and-its-superclass", &map(&a, &a), &map(&a, &b), unrelated);
    for (name, op) in [("lt", LT), ("gt", LT + 1), ("le", LT + 2), ("ge", LT + 3)] {
        let tree = binary(op, &leaf(&a), &leaf(&b));
        list.tree(&format!("order2.{}-never-asks-assignability", name), &chain(), tree, "0 0 1 06 1/5 0 0");
    }
}

/// Protected access and operator methods keep their climbs, of which the Rust is no yardstick any more.
fn other_climbs(list: &mut List) {
    list.of("protected_access_and_operator_methods_climb_as_before");
    let mut bare = base();
    bare.class(A, B, NONE, false);
    bare.function(B, F, 1, false, &[CHAR], &[]);
    bare.field(B, Q, &[LONG]);
    bare.visibility(B, Q, 1);
    let from = |class: u16, tree: Bytes| question_in(class, NONE, false, &tree);
    let f_of_b = || method(F, &leaf(&named(B)), &[]);
    let q_of_b = || member(Q, &leaf(&named(B)));
    list.ask("order2.protected-of-a-superclass-without-a-record", &bare, from(A, f_of_b()), "0 1 1 07 0");
    list.ask("order2.protected-from-an-unrelated-class", &bare, from(Z, f_of_b()), "0 0 1 07 1/20 0 1");
    list.ask("order2.a-protected-field-of-a-superclass", &bare, from(A, q_of_b()), "0 1 1 01 0");
    list.ask("order2.a-protected-field-from-an-unrelated-class", &bare, from(Z, q_of_b()), "0 0 1 01 1/20 0 1");
    let mut down = chain();
    down.function(A, F, 1, false, &[CHAR], &[]);
    let f_of_a = method(F, &leaf(&named(A)), &[]);
    list.ask("order2.protected-does-not-climb-down", &down, from(C, f_of_a), "0 0 1 07 1/20 0 1");
    let minus = built_in("minus");
    let mut sets = chain();
    sets.operators(A, 1);
    sets.operators(B, 4);
    sets.operators(C, 2);
    sets.function(C, minus, 0, false, &[DOUBLE], &[]);
    let sub = |class: u16| binary(SUB, &leaf(&named(class)), &l(INT));
    list.tree("order2.an-operator-method-two-steps-up", &sets, sub(A), "0 1 1 05 0");
    list.tree("order2.an-operator-method-is-not-looked-for-below", &sets, sub(Z), "0 0 1 15 1/3 0 0");
    let mut eq = chain();
    eq.operators(B, 1 << 5);
    eq.operators(A, 0);
    eq.function(B, built_in("eq"), 0, false, &[INT], &[]);
    let compared = |left: u16, right: u16| binary(EQ, &leaf(&named(left)), &leaf(&named(right)));
    list.tree("order2.an-eq-method-of-a-superclass-comes-before-the-comparison", &eq, compared(A, Z), "0 1 1 00 0");
    list.tree("order2.without-an-eq-method-the-comparison-takes-the-new-rule", &eq, compared(C, A), "0 1 1 06 0");
}
