//! Document 02, order 3: "keep the number of names as a running value from record to record, shown at each record to equal
//! the number of name records before it. .. An id that only a later name record would define is undefined; otherwise numbers
//! and bytes are as before."

use super::{refused, List};
use crate::bytes::*;
use crate::name::NONE;

pub fn add(list: &mut List) {
    later_names(list);
    limits(list);
    other_records(list);
    question_limits(list);
    faulty_names(list);
    names_behind(list);
}

/// A table by its number, which stands in front of the case's name where that is not 0.
fn put(list: &mut List, name: &str, table: &[&[u8]], number: u8) {
    let front = if number == 0 { String::new() } else { format!("{}-", number) };
    list.table(&format!("order3.{}{}", front, name), table.concat(), number);
}

fn names(spelled: &[&str]) -> Bytes {
    Table::with_names(spelled).bytes()
}

/// 40 is Aa, 41 is bb.
fn two() -> Bytes {
    names(&["Aa", "bb"])
}

/// A record with this id in each field that has one, and in the types of the others.
fn fields(id: u16) -> Vec<(&'static str, Bytes)> {
    let one = |put: &dyn Fn(&mut Table)| {
        let mut table = Table::new();
        put(&mut table);
        table.bytes()
    };
    let int = || vec![INT];
    vec![
        ("a-class", one(&|t| t.class(id, NONE, NONE, true))),
        ("a-superclass", one(&|t| t.class(6, id, NONE, true))),
        ("a-package", one(&|t| t.class(6, NONE, id, true))),
        ("the-class-of-an-operator-set", one(&|t| t.operators(id, 1))),
        ("the-owner-of-a-function", one(&|t| t.function(id, 6, 0, false, &[INT], &[]))),
        ("the-name-of-a-function", one(&|t| t.plain(id, &[INT], &[]))),
        ("a-result", one(&|t| t.plain(6, &named(id), &[]))),
        ("a-result-inside-a-map", one(&|t| t.plain(6, &map(&[STRING], &named(id)), &[]))),
        ("the-name-of-a-parameter", one(&|t| t.plain(6, &[INT], &[(id, 0, int())]))),
        ("the-name-of-a-second-parameter", one(&|t| t.plain(6, &[INT], &[(7, 0, int()), (id, VARARG, int())]))),
        ("the-type-of-a-parameter", one(&|t| t.plain(6, &[INT], &[(7, 0, named(id))]))),
        ("the-type-of-a-second-parameter", one(&|t| t.plain(6, &[INT], &[(7, 0, int()), (8, 0, list(&module(id)))]))),
        ("the-owner-of-a-field", one(&|t| t.field(id, 6, &[INT]))),
        ("the-name-of-a-field", one(&|t| t.field(6, id, &[INT]))),
        ("the-type-of-a-field", one(&|t| t.field(6, 7, &named(id)))),
        ("a-module-in-the-type-of-a-field", one(&|t| t.field(6, 7, &nullable(&module(id))))),
        ("the-owner-of-a-visibility", one(&|t| t.visibility(id, 6, 1))),
        ("the-name-of-a-visibility", one(&|t| t.visibility(6, id, 1))),
        ("the-owner-of-a-suspend-function", one(&|t| t.suspend(id, 6))),
        ("the-name-of-a-suspend-function", one(&|t| t.suspend(6, id))),
        ("the-owner-of-a-variant", one(&|t| t.variant(id, 6))),
        ("the-name-of-a-variant", one(&|t| t.variant(6, id))),
    ]
}

/// The record with this id in one of these fields.
fn field_of(what: &str, id: u16) -> Bytes {
    fields(id).into_iter().find(|(name, _)| *name == what).expect("one of the fields").1
}

/// 4 at the record that uses the id; 3 at the name, where every id before it is defined.
fn later_names(list: &mut List) {
    list.of("an_id_that_only_a_later_name_record_would_define_is_undefined");
    let later = names(&["later"]);
    for (what, record) in fields(42) {
        put(list, &format!("{}-of-a-later-name", what), &[&two(), &record, &later], 4);
    }
    for (what, record) in fields(41) {
        put(list, &format!("a-name-behind-{}", what), &[&two(), &record, &later], 3);
    }
    for (what, record) in fields(40) {
        put(list, &format!("{}-of-the-only-name-which-is-later", what), &[&record, &later], 4);
    }
    let field = |id: u16| field_of("the-type-of-a-field", id);
    put(list, "an-id-of-the-second-of-two-later-names", &[&two(), &field(43), &later, &names(&["last"])], 4);
    put(list, "an-id-of-a-later-name-behind-other-records", &[&two(), &field(42), &field(41), &later], 4);
    put(list, "an-id-of-a-later-name-that-is-malformed", &[&two(), &field(42), &[1; 26]], 4);
    put(list, "an-id-of-a-later-name-that-is-repeated", &[&two(), &field(42), &two()], 4);
    put(list, "an-id-of-a-name-between-is-undefined-before-it", &[&names(&["Aa"]), &field(41), &names(&["bb"])], 4);
    put(list, "a-name-between-comes-before-an-id-behind-it", &[&two(), &field(41), &later, &field(42)], 3);
}

/// "Table names go on from 40": the last name before a record is defined, the next id is not.
fn limits(list: &mut List) {
    list.of("the_last_name_before_a_record_is_defined_and_the_next_id_is_not");
    for (what, record) in fields(41) {
        put(list, &format!("{}-of-the-last-name", what), &[&two(), &record], 0);
    }
    for (what, record) in fields(42) {
        put(list, &format!("{}-behind-the-last-name", what), &[&two(), &record], 4);
    }
    let one = names(&["Aa"]);
    for what in ["the-type-of-a-parameter", "the-owner-of-a-field"] {
        put(list, &format!("{}-of-the-only-name", what), &[&one, &field_of(what, 40)], 0);
        put(list, &format!("{}-behind-the-only-name", what), &[&one, &field_of(what, 41)], 4);
    }
    let many = many();
    for (id, number) in [(255, 0), (256, 4), (296, 4)] {
        put(list, &format!("a-result-of-{}-of-216-names", id), &[&many, &field_of("a-result", id)], number);
    }
}

/// The ids of so many names end at 255.
fn many() -> Bytes {
    let spelled: Vec<String> = (0..216).map(|i| format!("n{}", i)).collect();
    names(&spelled.iter().map(String::as_str).collect::<Vec<_>>())
}

/// Records of every kind but names, without an id of the table.
fn others(to: u8) -> Bytes {
    let mut table = Table::new();
    table.class(6, NONE, NONE, true);
    table.operators(6, 1);
    table.plain(6, &[INT], &[]);
    table.field(6, 8, &[INT]);
    table.visibility(6, 8, 1);
    table.suspend(NONE, 6);
    table.variant(6, 8);
    table.records[1..to as usize].concat().concat()
}

fn other_records(list: &mut List) {
    list.of("no_other_record_counts_as_a_name");
    for kind in 2..=8u8 {
        for (id, number) in [(41, 0), (42, 4)] {
            let mut variant = Table::new();
            variant.variant(id, 7);
            let name = format!("an-id-of-{}-behind-kinds-2-to-{}", id, kind);
            put(list, &name, &[&two(), &others(kind), &variant.bytes()], number);
        }
    }
    let mut classes = Table::with_names(&["Aa"]);
    for class in 0..30 {
        classes.class(class, NONE, NONE, false);
    }
    classes.class(41, NONE, NONE, false);
    put(list, "a-class-of-41-behind-30-classes", &[&classes.bytes()], 4);
}

/// "An id check, in table or question, gets the id and that value": in a question the table's whole count.
fn question_limits(list: &mut List) {
    list.of("a_question_has_all_names_of_its_table");
    let int = leaf(&[INT]);
    let nodes = |id: u16| {
        [
            ("a-named-leaf", leaf(&named(id)), "0 1 3 112900 0"),
            ("a-module-leaf", leaf(&module(id)), "0 1 3 142900 0"),
            ("a-leaf-of-a-list", leaf(&crate::bytes::list(&named(id))), "0 1 4 0f112900 0"),
            ("a-named-argument", named_arg(id, &int), "0 1 1 00 0"),
            ("a-member", member(id, &leaf(&[ANY])), "0 1 1 09 0"),
            ("a-call", call(id, &[]), "0 0 1 15 0"),
            ("a-method-call", method(id, &int, &[]), "0 1 1 09 0"),
            ("an-argument-that-is-not-visited", method(6, &int, &[leaf(&named(id))]), "0 1 1 09 0"),
        ]
    };
    let headers = |id: u16| [("the-current-type", id, NONE), ("the-package", NONE, id), ("both-of-a-header", id, id)];
    for (tables, table) in [("two-names", two()), ("two-names-and-other-records", [two(), others(8)].concat())] {
        for (what, tree, expected) in nodes(41) {
            let name = format!("order3.{}-of-the-last-of-{}", what, tables);
            list.raw(&name, table.clone(), question(&tree), expected);
        }
        for (what, tree, _) in nodes(42) {
            let name = format!("order3.10-{}-behind-{}", what, tables);
            list.raw(&name, table.clone(), question(&tree), &refused(10));
        }
        for (what, current, package) in headers(41) {
            let name = format!("order3.{}-of-the-last-of-{}", what, tables);
            list.raw(&name, table.clone(), question_in(current, package, false, &int), "0 1 1 00 0");
        }
        for (what, current, package) in headers(42) {
            let name = format!("order3.10-{}-behind-{}", what, tables);
            list.raw(&name, table.clone(), question_in(current, package, false, &int), &refused(10));
        }
        // "8 .. malformed, cut", "lowest number within it".
        let mut faulty = question_in(42, NONE, false, &int);
        faulty[4] = 2;
        list.raw(&format!("order3.8-a-header-behind-{}", tables), table.clone(), faulty, &refused(8));
        let cut = question(&[5, 42, 0]);
        list.raw(&format!("order3.8-a-cut-call-behind-{}", tables), table.clone(), cut, &refused(8));
        let behind = question(&binary(ADD, &leaf(&named(41)), &leaf(&named(42))));
        list.raw(&format!("order3.10-the-second-leaf-behind-{}", tables), table, behind, &refused(10));
    }
    for (id, expected) in [(255, "0 1 3 11ff00 0"), (256, "10 0 0 - 0")] {
        list.raw(&format!("order3.a-leaf-of-{}-of-216-names", id), many(), question(&leaf(&named(id))), expected);
    }
}

/// A name's record with these bytes as its length and letters.
fn record(length: u8, letters: &[u8]) -> Bytes {
    let mut bytes = [&[1, length], letters].concat();
    bytes.resize(26, 0);
    bytes
}

/// Records in the place of a name, each with its number.
fn faults() -> Vec<(&'static str, Bytes, u8)> {
    vec![
        ("a-name-of-no-letters", record(0, &[]), 2),
        ("a-name-of-no-letters-with-one-behind-it", record(0, b"a"), 2),
        ("a-name-of-25-letters", record(25, &[b'a'; 24]), 2),
        ("a-name-with-a-dot", record(3, b"a.b"), 2),
        ("a-name-with-a-dot-at-its-end", record(24, &[&[b'a'; 23][..], b"."].concat()), 2),
        ("a-name-with-a-blank", record(3, b"a b"), 2),
        ("a-name-with-a-letter-behind-it", record(3, b"abcd"), 2),
        ("a-name-with-a-letter-at-the-records-end", [&record(3, b"abc")[..25], b"x"].concat(), 2),
        ("a-name-with-a-zero-inside", record(4, b"abc"), 2),
        ("a-built-in-name", record(4, b"Pair"), 5),
        ("the-last-built-in-name", record(4, b"keys"), 5),
        ("a-built-in-name-with-a-letter-more", record(5, b"keysx"), 0),
        ("a-name-of-24-letters", record(24, &[b'z'; 24]), 0),
        ("kind-0", vec![0; 26], 2),
        ("kind-9", vec![9; 26], 2),
    ]
}

fn faulty_names(list: &mut List) {
    list.of("a_faulty_name_first_in_the_middle_and_last");
    let (three, behind) = (["Aa", "bb", "Cc"].map(|name| names(&[name])), others(2));
    for (what, fault, number) in faults() {
        let tables = [
            ("before-three-names", [&fault[..], &three.concat()].concat()),
            ("among-three-names", [&three[..1].concat(), &fault[..], &three[1..].concat()].concat()),
            ("behind-three-names", [&three.concat(), &fault[..]].concat()),
        ];
        for (place, table) in tables {
            put(list, &format!("{}-{}", what, place), &[&table, &behind], number);
        }
    }
    for len in [1, 2, 3, 25] {
        let whole = record(3, b"abc");
        put(list, &format!("a-name-cut-at-{}-behind-three-names", len), &[&three.concat(), &whole[..len]], 2);
    }
    for (what, at) in [("first", 0), ("second", 1), ("third", 2)] {
        let again = three[at].clone();
        put(list, &format!("the-{}-of-three-names-again", what), &[&three.concat(), &again], 5);
        put(list, &format!("the-{}-of-three-names-right-behind-itself", what), &[&three[..=at].concat(), &again], 5);
    }
    put(list, "a-repeated-name-before-a-malformed-one", &[&two(), &two(), &record(0, &[])], 5);
    put(list, "a-malformed-name-before-a-repeated-one", &[&two(), &record(0, &[]), &two()], 2);
    put(list, "a-malformed-name-before-an-undefined-id", &[&record(0, &[]), &field_of("a-class", 99)], 2);
}

fn names_behind(list: &mut List) {
    list.of("a_name_behind_a_record_of_another_kind");
    for kind in 2..=8u8 {
        let front = [two(), others(kind)].concat();
        put(list, &format!("a-name-behind-kinds-2-to-{}", kind), &[&front, &names(&["Cc"])], 3);
    }
    let front = [two(), others(2)].concat();
    for (what, fault, number) in faults() {
        let number = if number == 2 { 2 } else { 3 };
        put(list, &format!("{}-behind-a-class", what), &[&front, &fault], number);
    }
    put(list, "a-repeated-name-behind-a-class", &[&front, &two()], 3);
    put(list, "a-cut-name-behind-a-class", &[&front, &record(3, b"abc")[..25]], 2);
}
