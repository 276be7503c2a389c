//! Tables at the edges of the format: each record cut behind each of its bytes, each kind behind each higher one, each
//! id and each key, names by length and letter, types at their limits, and the lookups of one table that has every kind.

use super::List;
use crate::bytes::*;
use crate::gen::boundary::diagnostics_case;
use crate::name::{built_in, BUILT_IN, NONE};

pub fn add(list: &mut List) {
    limits(list);
    names(list);
    built_in_names(list);
    cut_records(list);
    falling_kinds(list);
    ids(list);
    ids_in_types(list);
    keys(list);
    keys_of_two_ids(list);
    parameters(list);
    superclasses(list);
    errors(list);
    endless(list);
    members(list);
    operators(list);
    functions(list);
}

/// A table by its number, which stands in front of the case's name where that is not 0.
fn put(list: &mut List, name: &str, table: Bytes, number: u8) {
    let front = if number == 0 { String::new() } else { format!("{}-", number) };
    list.table(&format!("table.{}{}", front, name), table, number);
}

/// A well-formed record of each kind. But for the name it has built-in ids alone: first `one`, then `other` where the
/// kind has a second id.
fn record(kind: u8, one: u16, other: u16) -> Bytes {
    let mut table = Table::new();
    match kind {
        1 => {
            table.name("a");
        }
        2 => table.class(one, NONE, NONE, false),
        3 => table.operators(one, 1),
        4 => table.function(one, other, 0, false, &[INT], &[(3, 0, list(&[INT]))]),
        5 => table.field(one, other, &[INT]),
        6 => table.visibility(one, other, 3),
        7 => table.suspend(one, other),
        _ => table.variant(one, other),
    }
    table.bytes()
}

/// The longest table that is read, and one diagnostic more than the program's buffer holds.
fn limits(list: &mut List) {
    list.of("limits_of_tables");
    let mut table = Table::with_names(&["f"]);
    for _ in 0..6_661 {
        table.plain(40, &[INT], &[]);
    }
    for name in 0..5 {
        table.suspend(0, name);
    }
    assert_eq!(table.bytes().len(), 60_000);
    list.tree("table.of-60000-bytes", &table, call(40, &[]), "0 0 1 00 1/19 0 6661");
    let (table, question) = diagnostics_case(13_108);
    list.raw("answer.12-over-the-programs-buffer", table, question, "12 0 0 - 0");
}

fn names(list: &mut List) {
    list.of("lengths_and_letters_of_names");
    let name = |len: u8, letters: &[u8]| {
        let mut bytes = [&[1, len], letters].concat();
        bytes.resize(26, 0);
        bytes
    };
    for (len, number) in [(0, 2), (1, 0), (2, 0), (23, 0), (24, 0), (25, 2), (255, 2)] {
        let letters = vec![b'a'; (len as usize).min(24)];
        put(list, &format!("name-of-{}-letters", len), name(len, &letters), number);
    }
    for letter in [0, 32, 33, 45, 46, 47, 126, 127, 128, 255] {
        let number = if matches!(letter, 33 | 45 | 47 | 126) { 0 } else { 2 };
        put(list, &format!("name-of-letter-{}", letter), name(1, &[letter]), number);
        let last = [&[b'a'; 23][..], &[letter]].concat();
        put(list, &format!("name-with-24th-letter-{}", letter), name(24, &last), number);
    }
    put(list, "a-zero-inside-a-name", name(3, b"a\0b"), 2);
    put(list, "a-letter-right-behind-a-name", name(1, b"ab"), 2);
    put(list, "two-names-that-differ-in-the-last-letter", [name(2, b"ab"), name(2, b"ac")].concat(), 0);
}

fn built_in_names(list: &mut List) {
    list.of("every_built_in_name_is_a_key");
    for name in BUILT_IN {
        put(list, &format!("the-built-in-name-{}", name), Table::with_names(&[name]).bytes(), 5);
    }
    let longer: Vec<String> = BUILT_IN.iter().map(|name| format!("{}x", name)).collect();
    let longer: Vec<&str> = longer.iter().map(String::as_str).collect();
    put(list, "built-in-names-with-a-letter-more", Table::with_names(&longer).bytes(), 0);
    put(list, "parts-of-built-in-names", Table::with_names(&["Pai", "g", "oString", "ke", "PLUS"]).bytes(), 0);
}

fn cut_records(list: &mut List) {
    list.of("a_cut_record_is_malformed");
    let mut all = Vec::new();
    for kind in 1..=8 {
        let whole = record(kind, 1, 2);
        for len in 1..whole.len() {
            put(list, &format!("kind-{}-cut-at-{}", kind, len), whole[..len].to_vec(), 2);
        }
        all.extend(&whole);
        put(list, &format!("kind-{}-alone", kind), whole, 0);
    }
    put(list, "every-kind-in-order", all, 0);
    put(list, "kind-255", vec![255], 2);
    put(list, "operator-mask-bit-15", vec![3, 0, 0, 0, 128], 2);
    put(list, "array-flag-0-with-a-size-of-65536", vec![5, 0, 0, 0, 0, 14, 0, 0, 0, 1, 0, 0], 2);
}

fn falling_kinds(list: &mut List) {
    list.of("every_kind_that_falls");
    for high in 2..=8 {
        for low in 1..high {
            let table = [record(high, 1, 2), record(low, 1, 2)].concat();
            put(list, &format!("kind-{}-behind-kind-{}", low, high), table, 3);
        }
    }
    put(list, "a-falling-name-that-is-cut", [record(2, 1, 2), vec![1, 0]].concat(), 2);
}

/// Each id of each kind: what it is, where it stands, and whether it may be none.
const IDS: [(u8, &str, usize, bool); 17] = [
    (2, "class", 1, false),
    (2, "superclass", 3, true),
    (2, "first-interface", 5, true),
    (2, "second-interface", 7, true),
    (2, "package", 9, true),
    (3, "class", 1, false),
    (4, "owner", 1, true),
    (4, "name", 3, false),
    (4, "parameter", 9, false),
    (5, "owner", 1, false),
    (5, "name", 3, false),
    (6, "owner", 1, false),
    (6, "name", 3, false),
    (7, "owner", 1, true),
    (7, "name", 3, false),
    (8, "owner", 1, false),
    (8, "name", 3, false),
];

fn ids(list: &mut List) {
    list.of("every_id_of_a_record");
    for (kind, what, at, may_be_none) in IDS {
        for (id, number) in [(39, 0), (40, 4), (NONE, if may_be_none { 0 } else { 4 })] {
            let mut table = record(kind, 1, 2);
            table[at..at + 2].copy_from_slice(&id.to_le_bytes());
            put(list, &format!("kind-{}-{}-{}", kind, what, id), table, number);
        }
    }
    let (a, b) = (Table::with_names(&["A"]).bytes(), Table::with_names(&["b"]).bytes());
    put(list, "an-id-of-a-name-before", [&a[..], &b, &record(2, 41, 0)].concat(), 0);
    put(list, "an-id-of-a-name-behind", [&a[..], &record(2, 41, 0), &b].concat(), 4);
}

fn ids_in_types(list: &mut List) {
    list.of("every_id_in_a_type");
    for (kind, id, number) in [(17, 39, 0), (17, 40, 4), (17, NONE, 4), (20, 39, 0), (20, 40, 4), (20, NONE, 4)] {
        let ty = [&[kind][..], &id.to_le_bytes()].concat();
        let (mut result, mut parameter, mut field) = (Table::new(), Table::new(), Table::new());
        result.plain(0, &ty, &[]);
        parameter.plain(0, &[INT], &[(0, 0, ty.clone())]);
        field.field(0, 0, &ty);
        for (what, table) in [("result", result), ("parameter", parameter), ("field", field)] {
            put(list, &format!("{}-of-kind-{}-id-{}", what, kind, id), table.bytes(), number);
        }
    }
    let mut table = Table::new();
    table.field(0, 0, &type_var(u32::MAX));
    put(list, "a-type-variable-has-no-id", table.bytes(), 0);
}

fn keys(list: &mut List) {
    list.of("a_key_again_behind_another");
    let names = ["a", "b", "a"].map(|name| Table::with_names(&[name]).bytes());
    put(list, "kind-1-again-behind-another", names.concat(), 5);
    for kind in 2..=8 {
        let other = if kind < 4 { record(kind, 3, 0) } else { record(kind, 1, 3) };
        let table = [record(kind, 1, 2), other, record(kind, 1, 2)].concat();
        // Functions may repeat.
        let number = if kind == 4 { 0 } else { 5 };
        put(list, &format!("kind-{}-again-behind-another", kind), table, number);
    }
    let field = |ty: &[u8]| [&[5, 0, 0, 1, 0][..], ty].concat();
    let without_end = [field(&[INT]), field(&nullables(192, &[INT]))].concat();
    put(list, "a-repeated-field-whose-type-has-no-end", without_end, 5);
    put(list, "a-repeated-field-of-error", [field(&[INT]), field(&[ERROR])].concat(), 5);
}

fn keys_of_two_ids(list: &mut List) {
    list.of("a_key_of_two_ids_is_both_of_them");
    for kind in 5..=8 {
        let pairs = |ids: &[(u16, u16)]| ids.iter().flat_map(|(one, other)| record(kind, *one, *other)).collect();
        put(list, &format!("kind-{}-another-owner", kind), pairs(&[(1, 2), (3, 2)]), 0);
        put(list, &format!("kind-{}-another-name", kind), pairs(&[(1, 2), (1, 3)]), 0);
        put(list, &format!("kind-{}-owner-and-name-swapped", kind), pairs(&[(1, 2), (2, 1)]), 0);
    }
    put(list, "kind-7-with-and-without-an-owner", [record(7, NONE, 2), record(7, 1, 2)].concat(), 0);
}

fn parameters(list: &mut List) {
    list.of("a_parameters_name_is_a_key_within_its_function");
    let function = |ids: &[u16]| {
        let mut table = Table::new();
        let row: Vec<Param> = ids.iter().map(|id| (*id, 0, vec![INT])).collect();
        table.plain(0, &[INT], &row);
        table.bytes()
    };
    let all: Vec<u16> = (0..16).collect();
    put(list, "16-parameters", function(&all), 0);
    put(list, "a-16th-parameter-named-as-the-first", function(&[&all[..15], &[0]].concat()), 5);
    put(list, "a-parameter-again-behind-another", function(&[1, 2, 1]), 5);
    put(list, "a-parameter-in-two-functions", [function(&[1]), function(&[1])].concat(), 0);
    put(list, "a-repeated-parameter-and-an-undefined-one", function(&[1, 1, 40]), 4);
}

fn superclasses(list: &mut List) {
    list.of("a_superclass_behind_its_class");
    let (below, above) = (class_record(1, [2, NONE, NONE], NONE, 0), record(2, 2, 0));
    let behind = |between: &[u8]| [&below[..], between, &above].concat();
    put(list, "a-superclass-behind-a-kind-that-falls", behind(&record(3, 1, 0)), 6);
    put(list, "a-superclass-behind-kind-9", behind(&[9]), 2);
    let without_end = [&[5, 0, 0, 0, 0][..], &nullables(192, &[INT])].concat();
    put(list, "a-superclass-behind-a-type-without-end", behind(&without_end), 7);
    put(list, "a-superclass-behind-another-class", behind(&record(2, 3, 0)), 6);
}

fn errors(list: &mut List) {
    list.of("error_in_every_part_of_a_type");
    let field = |ty: &[u8]| [&[5, 0, 0, 0, 0][..], ty].concat();
    let error = &[ERROR];
    for (what, ty) in [
        ("nullable", nullable(error)),
        ("pointer", pointer(error)),
        ("array", array(None, error)),
        ("list", crate::bytes::list(error)),
        ("map-key", map(error, &[INT])),
        ("map-value", map(&[INT], error)),
        ("function-parameter", function(&[error], &[INT])),
        ("function-result", function(&[&[INT]], error)),
    ] {
        put(list, &format!("error-in-a-{}", what), field(&ty), 7);
    }
    let (mut result, mut parameter) = (Table::new(), Table::new());
    result.plain(0, error, &[]);
    parameter.plain(0, &[INT], &[(0, 0, vec![INT]), (1, 0, error.to_vec())]);
    put(list, "error-as-a-result", result.bytes(), 7);
    put(list, "error-as-a-parameters-type", parameter.bytes(), 7);
    put(list, "error-beside-an-undefined-id", field(&map(error, &named(40))), 4);
}

fn endless(list: &mut List) {
    list.of("types_at_192_bytes_in_every_place");
    for (what, number, depth) in [("of-192-bytes", 0, 191), ("without-end", 7, 192)] {
        for kind in [13, 15] {
            let mut table = vec![5, 0, 0, 0, 0];
            table.extend([vec![kind; depth], vec![INT]].concat());
            put(list, &format!("a-field-of-kind-{}-{}", kind, what), table, number);
        }
        let (mut result, mut parameter) = (Table::new(), Table::new());
        result.plain(0, &nullables(depth, &[INT]), &[]);
        parameter.plain(0, &[INT], &[(0, 0, nullables(depth, &[INT]))]);
        put(list, &format!("a-result-{}", what), result.bytes(), number);
        put(list, &format!("a-parameter-{}", what), parameter.bytes(), number);
    }
    let arrays = |n: usize, rest: &[u8]| [&[5, 0, 0, 0, 0][..], &array(None, &[]).repeat(n), rest].concat();
    put(list, "31-arrays-and-192-bytes", arrays(31, &nullables(5, &[INT])), 0);
    put(list, "32-arrays", arrays(32, &[INT]), 7);
    let head = [4, 0, 0, 0, 0, 0, 0, 17];
    put(list, "17-parameters-and-a-result-without-end", [&head[..], &nullables(192, &[])].concat(), 2);
}

const A: u16 = 40;
const B: u16 = 41;

/// Every kind of record: class A in `types`, class b below it; operators of A; A.b, and b twice; a field, a visibility
/// and a variant of A; a suspend function b.
fn every_kind() -> Table {
    let mut table = Table::with_names(&["A", "b"]);
    table.class(A, NONE, NONE, true);
    table.class(B, A, A, false);
    table.operators(A, 1 | 1 << 10);
    let of_a = crate::bytes::list(&named(A));
    table.function(A, B, 1, false, &nullable(&[STRING]), &[(6, DEFAULT, vec![INT]), (7, VARARG, of_a)]);
    table.function(NONE, B, 0, true, &[UNIT], &[]);
    table.function(NONE, B, 0, false, &[INT], &[(6, DEFAULT | VARARG, vec![ANY])]);
    table.field(A, B, &nullable(&[INT]));
    table.visibility(A, B, 3);
    table.suspend(NONE, B);
    table.variant(A, 6);
    table
}

fn members(list: &mut List) {
    list.of("members_in_a_table_of_every_kind");
    let table = every_kind();
    let of = |class: u16, name: u16| member(name, &leaf(&named(class)));
    list.twice("lookup.field", &table, question_in(A, NONE, false, &of(A, B)), "0 1 2 0c00 0");
    list.twice("lookup.field-and-visibility", &table, question(&of(A, B)), "0 0 2 0c00 1/20 0 3");
    list.twice("lookup.no-field-of-another-owner", &table, question(&of(B, B)), "0 0 1 15 0");
    list.twice("lookup.variant", &table, question(&of(A, 6)), "0 1 3 112800 0");
    list.twice("lookup.no-variant-of-another-name", &table, question(&of(A, 7)), "0 0 1 15 1/22 0 0");
    list.twice("lookup.no-variant-of-another-owner", &table, question(&of(B, 6)), "0 0 1 15 0");
}

fn operators(list: &mut List) {
    list.of("operators_in_a_table_of_every_kind");
    let table = every_kind();
    let by = |op: u8, class: u16| binary(op, &leaf(&named(class)), &leaf(&[INT]));
    list.twice("lookup.operator-plus", &table, question(&by(ADD, A)), "0 1 1 09 0");
    list.twice("lookup.operator-ge", &table, question(&by(10, A)), "0 1 1 09 0");
    list.twice("lookup.no-operator-minus", &table, question(&by(SUB, A)), "0 0 1 15 1/3 0 0");
    list.twice("lookup.no-operators-of-another-class", &table, question(&by(ADD, B)), "0 0 1 15 1/2 0 0");
}

fn functions(list: &mut List) {
    list.of("functions_in_a_table_of_every_kind");
    let table = every_kind();
    let on_a = |args: &[Bytes]| method(B, &leaf(&named(A)), args);
    let inside = |class: u16, tree: &[u8]| question_in(class, NONE, false, tree);
    let passed = "0 1 2 0c08 0";
    list.ask("lookup.method-in-a-subclass", &table, inside(B, &on_a(&[leaf(&[INT])])), passed);
    list.twice("lookup.method-with-defaults", &table, inside(A, &on_a(&[])), passed);
    list.twice("lookup.method-outside", &table, question(&on_a(&[])), "0 0 2 0c08 1/20 0 1");
    list.twice("lookup.no-method-of-another-owner", &table, question(&method(B, &leaf(&named(B)), &[])), "0 1 1 09 0");
    list.twice("lookup.suspend-function", &table, question(&call(B, &[])), "0 0 1 00 1/14 0 0");
    list.twice("lookup.the-second-function", &table, question_in(NONE, NONE, true, &call(B, &[])), "0 1 1 00 0");
    let size = built_in("size");
    list.twice("lookup.no-function-of-another-name", &table, question(&call(size, &[])), "0 0 1 15 0");
}
