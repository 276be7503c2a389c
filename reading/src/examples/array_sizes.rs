//! Document 02, order 5: "Type kind 22 is an Array with a flag of 1 and an 8-byte size of at least 2^32; smaller sizes keep
//! kind 14, so equal types are still equal bytes, and every size of the old width reads as it did. A kind 22 with a smaller
//! size or another flag counts as malformed". "All Array rules cover both kinds".

use super::{base, goes, l, refused, t, List, A, ASSIGNS, B, C, DIFFERS, F, P, Q, T, Z};
use crate::bytes::*;
use crate::name::{built_in, NONE};

pub fn add(list: &mut List) {
    sizes(list);
    old_width(list);
    malformed(list);
    malformed_inside(list);
    cut(list);
    at_the_limit(list);
    bytes_left(list);
    longest(list);
    nested(list);
    ids(list);
    errors(list);
    kinds_above(list);
    order_of_numbers(list);
    assigns(list);
    names(list);
    nullables_around(list);
    elements(list);
    classes(list);
    whole(list);
    overloads(list);
    overloads_in_calls(list);
    members(list);
    elements_as_members(list);
    comparisons(list);
    binary_operators(list);
    unary_operators(list);
}

/// The least size of kind 22, and the greatest.
const LEAST: u64 = 1 << 32;
const GREATEST: u64 = u64::MAX;

/// An Array of Int of the least large size, in hex.
const LARGE_INT: &str = "1601000000000100000000";

/// A large Array of the least size.
fn large(inner: &[u8]) -> Bytes {
    array(Some(LEAST), inner)
}

/// A kind 22 whatever its flag and size are.
fn body(flag: u8, size: u64, inner: &[u8]) -> Bytes {
    array_body(22, flag, &size.to_le_bytes(), inner)
}

fn of(inner: u8) -> Bytes {
    crate::bytes::list(&[inner])
}

/// A field record whose type are these bytes.
fn field(ty: &[u8]) -> Bytes {
    [&[5, 0, 0, 0, 0][..], ty].concat()
}

fn table(list: &mut List, name: &str, table: Bytes, number: u8) {
    list.table(&format!("order5.table-{}", name), table, number);
}

/// A leaf without a table whose type are these bytes: refused with this number.
fn leaf_refused(list: &mut List, name: &str, ty: &[u8], number: u8) {
    list.raw(&format!("order5.leaf-{}", name), vec![], question(&leaf(ty)), &refused(number));
}

/// The same bytes as a field's type and as a leaf's.
fn both_refused(list: &mut List, name: &str, ty: &[u8], in_table: u8, in_leaf: u8) {
    table(list, name, field(ty), in_table);
    leaf_refused(list, name, ty, in_leaf);
}

fn put(list: &mut List, name: &str, table: &Table, tree: Bytes, expected: &str) {
    list.tree(&format!("order5.{}", name), table, tree, expected);
}

/// A value of one type where another is expected.
fn pass(list: &mut List, name: &str, from: &[u8], to: &[u8], expected: &str) {
    let (table, tree) = goes(from, to);
    put(list, name, &table, tree, expected);
}

fn sizes(list: &mut List) {
    list.of("every_size_in_the_kind_that_it_asks_for");
    for (name, size, digits) in [
        ("none", None, "0e000000000000"),
        ("0", Some(0), "0e010000000000"),
        ("1", Some(1), "0e010100000000"),
        ("256", Some(256), "0e010001000000"),
        ("4294967295", Some(0xffff_ffff), "0e01ffffffff00"),
        ("4294967296", Some(LEAST), LARGE_INT),
        ("4294967297", Some(LEAST + 1), "1601010000000100000000"),
        ("1099511627776", Some(1 << 40), "1601000000000001000000"),
        ("72057594037927936", Some(1 << 56), "1601000000000000000100"),
        ("18446744073709551615", Some(GREATEST), "1601ffffffffffffffff00"),
    ] {
        let ty = array(size, &[INT]);
        let given = format!("0 1 {} {} 0", digits.len() / 2, digits);
        let mut table = base();
        table.function(NONE, F, 0, false, &ty, &[(P, 0, ty.clone())]);
        table.field(A, P, &ty);
        put(list, &format!("leaf-of-size-{}", name), &Table::new(), leaf(&ty), &given);
        put(list, &format!("field-of-size-{}", name), &table, member(P, &leaf(&named(A))), &given);
        put(list, &format!("result-of-size-{}", name), &table, call(F, &[leaf(&ty)]), &given);
        let differs = format!("0 0 {} {} 1/17 1 1", digits.len() / 2, digits);
        put(list, &format!("parameter-of-size-{}", name), &table, call(F, &[l(STRING)]), &differs);
    }
}

/// Both flags of kind 14, beside each other.
fn old_width(list: &mut List) {
    list.of("every_size_of_the_old_width_reads_as_it_did");
    for (flag, size, in_table, in_leaf) in [
        (0, 0, 0, 0),
        (1, 0, 0, 0),
        (1, 0xffff_ffff, 0, 0),
        (0, 1, 2, 8),
        (0, 0xffff_ffff, 2, 8),
        (2, 0, 2, 8),
        (255, 0xffff_ffff, 2, 8),
    ] {
        let ty = array_body(14, flag, &u32::to_le_bytes(size), &[INT]);
        let name = format!("kind-14-flag-{}-size-{}", flag, size);
        table(list, &name, field(&ty), in_table);
        if in_leaf != 0 {
            leaf_refused(list, &name, &ty, in_leaf);
        }
    }
    // Eight bytes behind the flag of kind 14: the last four are no part of its body.
    let ty = array_body(14, 1, &LEAST.to_le_bytes(), &[]);
    let tree = [&leaf(&ty)[..], &[0; 4]].concat();
    put(list, "kind-14-takes-no-8-byte-size", &Table::new(), tree, &refused(8));
}

fn malformed(list: &mut List) {
    list.of("a_kind_22_with_a_smaller_size_or_another_flag_counts_as_malformed");
    let mut all: Vec<(u8, u64)> = [0, 1, 255, 1 << 16, 1 << 31, LEAST - 1].map(|size| (1, size)).to_vec();
    all.extend([0, 1, LEAST - 1, LEAST, GREATEST].map(|size| (0, size)));
    for flag in [2, 3, 128, 129, 254, 255] {
        all.extend([0, LEAST, GREATEST].map(|size| (flag, size)));
    }
    for (flag, size) in all {
        let ty = body(flag, size, &[INT]);
        let name = format!("flag-{}-size-{}", flag, size);
        both_refused(list, &name, &ty, 2, 8);
        let (mut result, mut parameter) = (Table::new(), Table::new());
        result.plain(0, &ty, &[]);
        parameter.plain(0, &[INT], &[(0, 0, vec![INT]), (1, 0, ty)]);
        table(list, &format!("result-{}", name), result.bytes(), 2);
        table(list, &format!("parameter-{}", name), parameter.bytes(), 2);
    }
}

fn malformed_inside(list: &mut List) {
    list.of("a_malformed_large_array_in_every_part_of_a_type");
    for (what, bad) in [("flag-0", body(0, LEAST, &[INT])), ("size-4294967295", body(1, LEAST - 1, &[INT]))] {
        for (place, ty) in [
            ("nullable", nullable(&bad)),
            ("pointer", pointer(&bad)),
            ("list", crate::bytes::list(&bad)),
            ("array", array(None, &bad)),
            ("large-array", large(&bad)),
            ("map-key", map(&bad, &[INT])),
            ("map-value", map(&[INT], &bad)),
            ("function-parameter", function(&[&bad], &[INT])),
            ("function-result", function(&[&[INT]], &bad)),
        ] {
            both_refused(list, &format!("{}-in-a-{}", what, place), &ty, 2, 8);
        }
    }
    // Nothing of a malformed body is taken for the element: the id behind it is not asked.
    both_refused(list, "an-undefined-id-behind-a-malformed-body", &body(0, 0, &named(40)), 2, 8);
    both_refused(list, "error-behind-a-malformed-body", &body(2, LEAST, &[ERROR]), 2, 8);
}

fn cut(list: &mut List) {
    list.of("a_large_array_cut_behind_each_of_its_bytes");
    let whole = body(1, GREATEST, &named(0));
    for (what, ty) in [("well-formed", whole), ("with-flag-2", body(2, LEAST, &[])), ("of-size-0", body(1, 0, &[]))] {
        // A malformed one is malformed as soon as its body is whole, which draws the same numbers.
        for len in 1..ty.len() {
            both_refused(list, &format!("{}-cut-at-{}", what, len), &ty[..len], 2, 8);
        }
    }
    let ty = large(&[INT]);
    for len in 1..ty.len() {
        let (mut result, mut parameter) = (Table::new(), Table::new());
        result.plain(0, &ty[..len], &[]);
        parameter.plain(0, &[INT], &[(0, 0, ty[..len].to_vec())]);
        table(list, &format!("result-cut-at-{}", len), result.bytes(), 2);
        table(list, &format!("parameter-cut-at-{}", len), parameter.bytes(), 2);
    }
    // The bytes of another node are taken for the body where a leaf is cut.
    let tree = binary(EQ, &leaf(&ty[..6]), &leaf(&[INT]));
    put(list, "leaf-cut-before-another", &Table::new(), tree, &refused(8));
}

/// One-byte kinds before a large Array of Int, at each place where its body meets the 192nd byte.
fn at_the_limit(list: &mut List) {
    list.of("a_large_array_at_the_192nd_byte");
    for n in 181..=192 {
        // From 183 on the body is not wholly inside the first 192 bytes, and is not examined.
        let (in_table, in_leaf) = if n < 183 { (2, 8) } else { (7, 11) };
        let name = |what: &str| format!("{}-behind-{}-one-byte-kinds", what, n);
        for (what, bad) in [
            ("flag-0", body(0, LEAST, &[INT])),
            ("flag-2", body(2, LEAST, &[INT])),
            ("size-0", body(1, 0, &[INT])),
            ("size-4294967295", body(1, LEAST - 1, &[INT])),
        ] {
            both_refused(list, &name(what), &nullables(n, &bad), in_table, in_leaf);
        }
        if n > 181 {
            both_refused(list, &name("a-large-array"), &nullables(n, &large(&[INT])), 7, 11);
            both_refused(list, &name("a-large-array-of-an-undefined-id"), &nullables(n, &large(&named(40))), 7, 11);
            both_refused(list, &name("a-large-array-of-kind-23"), &nullables(n, &large(&[23])), 7, 11);
        }
    }
    // A kind 22 behind the first 192 bytes is not read at all.
    both_refused(list, "kind-22-at-the-193rd-byte", &nullables(192, &[22]), 7, 11);
    both_refused(list, "kind-22-from-the-193rd-byte-on", &nullables(192, &[22, 22, 22]), 7, 11);
    // An id before the body is examined, whatever becomes of the body.
    let ty = map(&named(40), &nullables(180, &body(2, 0, &[])));
    both_refused(list, "an-undefined-id-before-a-body-that-is-not-examined", &ty, 4, 10);
    let ty = map(&named(40), &nullables(178, &body(2, 0, &[])));
    both_refused(list, "an-undefined-id-before-a-malformed-body", &ty, 2, 8);
}

/// How many bytes are left decides between cut and without end.
fn bytes_left(list: &mut List) {
    list.of("a_large_array_with_fewer_than_192_bytes_left_is_cut");
    for n in 181..=191 {
        let ty = nullables(n, &large(&[INT]));
        both_refused(list, &format!("191-bytes-left-of-{}-one-byte-kinds", n), &ty[..191], 2, 8);
        let bad = nullables(n, &body(0, 0, &[INT]));
        both_refused(list, &format!("191-bytes-left-of-{}-before-a-malformed-body", n), &bad[..191], 2, 8);
        if n > 181 {
            both_refused(list, &format!("192-bytes-left-of-{}-one-byte-kinds", n), &ty[..192], 7, 11);
        }
        if n > 182 {
            both_refused(list, &format!("192-bytes-left-of-{}-before-a-malformed-body", n), &bad[..192], 7, 11);
        }
    }
    // The next record's bytes are left, too: the type is without end and nothing behind its 192 bytes is read.
    let short = nullables(185, &large(&[])[..5]);
    let suspend = [7, 0, 0, 0, 0];
    table(list, "a-body-that-breaks-off-before-a-record", [field(&short), suspend.to_vec()].concat(), 7);
    let shorter = nullables(180, &large(&[])[..5]);
    table(list, "a-body-that-breaks-off-far-before-a-record", [field(&shorter), suspend.to_vec()].concat(), 2);
    let node = [&leaf(&short)[..], &[0, 0]].concat();
    let two = question(&[&[1, ADD][..], &node].concat());
    list.raw("order5.leaf-a-body-that-breaks-off-before-a-node", vec![], two, &refused(11));
}

/// The most one-byte kinds before a large Array of Int.
fn longest(list: &mut List) {
    list.of("the_longest_type_with_a_large_array");
    for (kind, digits) in [(12, "0c"), (13, "0d"), (15, "0f")] {
        let deep = |n: usize| [vec![kind; n], large(&[INT])].concat();
        table(list, &format!("181-of-kind-{}-before-a-large-array", kind), field(&deep(181)), 0);
        let expected = format!("0 1 192 {}{} 0", digits.repeat(181), LARGE_INT);
        let name = format!("leaf-of-181-of-kind-{}-before-a-large-array", kind);
        put(list, &name, &Table::new(), leaf(&deep(181)), &expected);
        both_refused(list, &format!("182-of-kind-{}-before-a-large-array", kind), &deep(182), 7, 11);
    }
    let many = |n: usize| (0..19).fold(nullables(n, &[INT]), |inner, _| large(&inner));
    let head = "16010000000001000000".repeat(19);
    put(list, "leaf-of-19-large-arrays", &Table::new(), leaf(&many(1)), &format!("0 1 192 {}0c00 0", head));
    table(list, "19-large-arrays", field(&many(1)), 0);
    both_refused(list, "19-large-arrays-and-193-bytes", &many(2), 7, 11);
    let named_element = |n: usize| nullables(n, &large(&named(39)));
    let expected = format!("0 1 192 {}16010000000001000000112700 0", "0c".repeat(179));
    put(list, "leaf-of-192-bytes-with-a-named-element", &Table::new(), leaf(&named_element(179)), &expected);
    both_refused(list, "193-bytes-with-a-named-element", &named_element(180), 7, 11);
    let mut table = base();
    table.function(C, F, 0, false, &nullables(181, &large(&[INT])), &[]);
    let tree = (0..62).fold(member(F, &leaf(&named(C))), |tree, _| unary(ADDR_OF, &tree));
    let expected = format!("0 1 256 {}1200{}{} 0", "0d".repeat(62), "0c".repeat(181), LARGE_INT);
    put(list, "a-type-of-256-bytes", &table, tree, &expected);
}

fn nested(list: &mut List) {
    list.of("arrays_of_both_kinds_in_each_other");
    let three = array(Some(3), &[INT]);
    for (name, ty, digits) in [
        ("14-in-22", large(&three), "16010000000001000000.0e010300000000"),
        ("22-in-14", array(Some(3), &large(&[INT])), "0e0103000000.1601000000000100000000"),
        ("22-in-22", large(&array(Some(GREATEST), &[CHAR])), "16010000000001000000.1601ffffffffffffffff07"),
        (
            "22-in-14-in-22",
            large(&array(None, &large(&[INT]))),
            "16010000000001000000.0e0000000000.1601000000000100000000",
        ),
        ("14-in-22-in-14", array(None, &large(&three)), "0e0000000000.16010000000001000000.0e010300000000"),
        ("list-in-22", large(&of(STRING)), "16010000000001000000.0f08"),
        ("22-in-a-map", map(&large(&[INT]), &large(&[CHAR])), "10.1601000000000100000000.1601000000000100000007"),
    ] {
        let digits = digits.replace('.', "");
        let given = format!("0 1 {} {} 0", digits.len() / 2, digits);
        put(list, &format!("leaf-of-{}", name), &Table::new(), leaf(&ty), &given);
        let mut table = base();
        table.field(A, P, &ty);
        table.field(A, Q, &[LONG]);
        put(list, &format!("field-of-{}", name), &table, member(P, &leaf(&named(A))), &given);
        // What stands behind the type is read as what it is.
        put(list, &format!("field-behind-{}", name), &table, member(Q, &leaf(&named(A))), "0 1 1 01 0");
        let two = binary(TO, &leaf(&ty), &l(INT));
        put(list, &format!("leaf-before-another-of-{}", name), &Table::new(), two, "0 1 3 110000 0");
    }
}

fn ids(list: &mut List) {
    list.of("ids_in_a_large_array");
    for (what, undefined) in [("named", named(40)), ("module", module(40)), ("named-65535", named(NONE))] {
        both_refused(list, &format!("an-undefined-{}-in-a-large-array", what), &large(&undefined), 4, 10);
        let (mut result, mut parameter) = (Table::new(), Table::new());
        result.plain(0, &large(&undefined), &[]);
        parameter.plain(0, &[INT], &[(0, 0, large(&undefined))]);
        table(list, &format!("a-result-with-an-undefined-{}", what), result.bytes(), 4);
        table(list, &format!("a-parameter-with-an-undefined-{}", what), parameter.bytes(), 4);
    }
    // The size's bytes are no ids, and the flag and the size no kinds.
    let ty = body(1, u64::from_le_bytes([17, 200, 200, 17, 200, 200, 21, 23]), &[INT]);
    table(list, "a-size-that-looks-like-kinds", field(&ty), 0);
    put(list, "leaf-a-size-that-looks-like-kinds", &Table::new(), leaf(&ty), "0 1 11 160111c8c811c8c8151700 0");
    put(
        list,
        "leaf-of-the-last-built-in-name",
        &Table::new(),
        leaf(&large(&named(39))),
        "0 1 13 16010000000001000000112700 0",
    );
    let mut one = Table::with_names(&["a"]);
    let defined = leaf(&large(&named(40)));
    put(list, "leaf-of-a-name-of-the-table", &one, defined, "0 1 13 16010000000001000000112800 0");
    one.field(0, 0, &large(&named(40)));
    table(list, "a-name-of-the-table-in-a-large-array", one.bytes(), 0);
}

fn errors(list: &mut List) {
    list.of("error_in_a_large_array");
    let error = large(&[ERROR]);
    table(list, "error-in-a-large-array", field(&error), 7);
    table(list, "error-in-a-large-array-in-a-list", field(&crate::bytes::list(&error)), 7);
    table(list, "error-in-an-array-in-a-large-array", field(&large(&array(None, &[ERROR]))), 7);
    table(list, "error-beside-an-undefined-id-in-large-arrays", field(&map(&error, &large(&named(40)))), 4);
    let (mut result, mut parameter) = (Table::new(), Table::new());
    result.plain(0, &error, &[]);
    parameter.plain(0, &[INT], &[(0, 0, error.clone())]);
    table(list, "error-in-a-large-array-as-a-result", result.bytes(), 7);
    table(list, "error-in-a-large-array-as-a-parameter", parameter.bytes(), 7);
    // Only Error itself is no type of a typing.
    put(list, "leaf-of-error-in-a-large-array", &Table::new(), leaf(&error), "0 1 11 1601000000000100000015 0");
    let first = member(built_in("first"), &leaf(&error));
    put(list, "first-of-error-in-a-large-array-does-not-pass", &Table::new(), first, "0 0 1 15 0");
}

fn kinds_above(list: &mut List) {
    list.of("kinds_from_23_upward_are_malformed");
    for kind in [23, 24, 127, 128, 255] {
        both_refused(list, &format!("kind-{}", kind), &[kind], 2, 8);
        // As long as the longest body, and an element.
        let long = body(1, LEAST, &[INT]);
        both_refused(
            list,
            &format!("kind-{}-with-the-body-of-a-large-array", kind),
            &[&[kind][..], &long[1..]].concat(),
            2,
            8,
        );
        both_refused(list, &format!("kind-{}-in-a-large-array", kind), &large(&[kind]), 2, 8);
        both_refused(list, &format!("kind-{}-at-the-192nd-byte", kind), &nullables(191, &[kind]), 2, 8);
        both_refused(list, &format!("kind-{}-at-the-193rd-byte", kind), &nullables(192, &[kind]), 7, 11);
    }
}

fn order_of_numbers(list: &mut List) {
    list.of("the_lowest_number_beside_a_large_array");
    let bad = body(0, LEAST, &[INT]);
    let endless = nullables(183, &bad);
    both_refused(list, "a-malformed-body-behind-an-undefined-id", &map(&named(40), &bad), 2, 8);
    both_refused(list, "an-undefined-id-in-a-type-that-is-cut", &map(&large(&named(40)), &endless[..176]), 2, 8);
    both_refused(list, "an-undefined-id-in-a-type-without-end", &map(&large(&named(40)), &nullables(200, &bad)), 4, 10);
    both_refused(list, "a-kind-22-that-is-cut-behind-an-undefined-id", &map(&named(40), &[22]), 2, 8);
    let undefined_owner = [&[5, 40, 0, 0, 0][..], &bad].concat();
    table(list, "a-malformed-body-in-a-field-of-an-undefined-owner", undefined_owner, 2);
    table(list, "a-malformed-body-behind-a-kind-that-falls", [&[6, 0, 0, 0, 0, 0][..], &field(&bad)].concat(), 2);
    table(list, "a-repeated-field-with-a-large-array", [field(&[INT]), field(&large(&[INT]))].concat(), 5);
    table(list, "a-repeated-field-with-a-body-that-is-not-examined", [field(&[INT]), field(&endless)].concat(), 5);
    let chain = |last: &[u8]| question(&[&[2, ADDR_OF].repeat(64)[..], &leaf(last)].concat());
    let mut ask = |name: &str, last: &[u8], number: u8| {
        list.raw(&format!("order5.a-65th-node-{}", name), vec![], chain(last), &refused(number));
    };
    ask("of-a-large-array", &large(&[INT]), 9);
    ask("of-a-malformed-large-array", &bad, 8);
    ask("of-a-large-array-that-is-cut", &large(&[]), 8);
    ask("of-a-body-that-is-not-examined", &endless, 9);
    ask("of-an-undefined-id-in-a-large-array", &large(&named(40)), 9);
}

/// Element types: one that goes to Int, and one that does not.
fn assigns(list: &mut List) {
    list.of("list_and_array_assign_to_array_by_element_type_whatever_the_widths");
    let shapes: [(&str, fn(&[u8]) -> Bytes); 7] = [
        ("list", crate::bytes::list),
        ("array", |x| array(None, x)),
        ("array-3", |x| array(Some(3), x)),
        ("array-4294967295", |x| array(Some(LEAST - 1), x)),
        ("array-4294967296", |x| array(Some(LEAST), x)),
        ("array-4294967297", |x| array(Some(LEAST + 1), x)),
        ("array-18446744073709551615", |x| array(Some(GREATEST), x)),
    ];
    for (i, (from, left)) in shapes.iter().enumerate() {
        for (j, (to, right)) in shapes.iter().enumerate() {
            // One of the two is large.
            if i < 4 && j < 4 {
                continue;
            }
            let name = |what: &str| format!("{}-of-{}-to-{}-of-int", from, what, to);
            // A List goes to every List, and no Array to a List.
            let goes_by_element = j != 0;
            let yes = if goes_by_element { ASSIGNS } else { DIFFERS };
            pass(list, &name("int"), &left(&[INT]), &right(&[INT]), yes);
            pass(list, &name("long"), &left(&[LONG]), &right(&[INT]), yes);
            pass(list, &name("boolean"), &left(&[BOOLEAN]), &right(&[INT]), DIFFERS);
        }
    }
}

fn names(list: &mut List) {
    list.of("named_array_list_and_mutable_list_assign_to_every_array");
    for (name, id, to_array) in [
        ("list", 1, DIFFERS),
        ("array-list", 2, ASSIGNS),
        ("mutable-list", 3, ASSIGNS),
        ("array", 4, DIFFERS),
        ("set", 5, DIFFERS),
    ] {
        pass(list, &format!("named-{}-to-a-large-array", name), &named(id), &large(&[INT]), to_array);
        let longest = array(Some(GREATEST), &named(0));
        pass(list, &format!("named-{}-to-the-largest-array", name), &named(id), &longest, to_array);
        pass(list, &format!("a-large-array-to-named-{}", name), &large(&[INT]), &named(id), DIFFERS);
        let nullable_to = nullable(&large(&[INT]));
        pass(list, &format!("named-{}-to-a-nullable-large-array", name), &named(id), &nullable_to, to_array);
        let nullable_from = nullable(&named(id));
        pass(list, &format!("nullable-named-{}-to-a-large-array", name), &nullable_from, &large(&[INT]), to_array);
        // The element of an Array of a list name.
        let (from, to) = (array(Some(3), &named(id)), large(&large(&[INT])));
        pass(list, &format!("array-of-named-{}-to-a-large-array-of-large-arrays", name), &from, &to, to_array);
    }
}

fn nullables_around(list: &mut List) {
    list.of("nullables_around_a_large_array");
    let (int, other) = (large(&[INT]), array(Some(GREATEST), &[INT]));
    let small = array(Some(3), &[INT]);
    let mut go = |name: &str, from: &[u8], to: &[u8], expected: &str| pass(list, name, from, to, expected);
    go("nullable-22-to-22-of-another-size", &nullable(&int), &other, ASSIGNS);
    go("22-to-nullable-22-of-another-size", &int, &nullable(&other), ASSIGNS);
    go("nullable-22-to-nullable-22-of-another-size", &nullable(&int), &nullable(&other), ASSIGNS);
    go("nullable-22-to-14", &nullable(&int), &small, ASSIGNS);
    go("nullable-14-to-22", &nullable(&small), &int, ASSIGNS);
    go("14-to-nullable-22", &small, &nullable(&int), ASSIGNS);
    go("22-to-nullable-14", &int, &nullable(&small), ASSIGNS);
    go("nullable-14-to-nullable-22", &nullable(&small), &nullable(&int), ASSIGNS);
    go("two-nullables-22-to-14", &nullables(2, &int), &small, ASSIGNS);
    go("nullable-list-to-22", &nullable(&of(INT)), &int, ASSIGNS);
    go("list-to-nullable-22", &of(INT), &nullable(&int), ASSIGNS);
    go("nullable-22-to-list", &nullable(&int), &of(INT), DIFFERS);
    go("nullable-22-of-boolean-to-22", &nullable(&large(&[BOOLEAN])), &int, DIFFERS);
    go("22-of-boolean-to-nullable-14", &large(&[BOOLEAN]), &nullable(&small), DIFFERS);
    go("null-to-22", &nullable(&[NOTHING]), &int, ASSIGNS);
    go("nothing-to-22", &[NOTHING], &int, ASSIGNS);
    go("22-to-nothing", &int, &[NOTHING], DIFFERS);
    go("22-to-int", &int, &[INT], DIFFERS);
    go("int-to-22", &[INT], &int, DIFFERS);
    go("any-to-22", &[ANY], &int, ASSIGNS);
    go("22-to-any", &int, &[ANY], ASSIGNS);
    go("error-to-22-does-not-pass", &[ERROR], &int, "0 0 1 06 0");
    go("22-to-a-type-variable", &int, &named(T), ASSIGNS);
    go("22-to-22-of-a-type-variable", &int, &large(&named(T)), DIFFERS);
    go("22-to-a-class", &int, &named(Z), DIFFERS);
}

/// What the elements of two Arrays decide, at every depth where assignability asks itself.
fn elements(list: &mut List) {
    list.of("elements_of_large_arrays_decide_at_every_depth");
    let small = |x: &[u8]| array(Some(3), x);
    let other = |x: &[u8]| array(Some(GREATEST), x);
    let (int, long, boolean) = (&[INT][..], &[LONG][..], &[BOOLEAN][..]);
    let mut go = |name: &str, from: &[u8], to: &[u8], expected: &str| pass(list, name, from, to, expected);
    go("14-of-22-to-22-of-14", &small(&large(int)), &large(&small(long)), ASSIGNS);
    go("22-of-14-to-14-of-22", &large(&small(int)), &small(&large(long)), ASSIGNS);
    go("22-of-14-of-boolean-to-14-of-22", &large(&small(boolean)), &small(&large(int)), DIFFERS);
    go("22-of-22-to-22-of-22-of-other-sizes", &large(&other(int)), &other(&large(int)), ASSIGNS);
    go("22-of-22-of-boolean-to-14-of-14", &large(&large(boolean)), &small(&small(int)), DIFFERS);
    go("22-of-list-to-14-of-22", &large(&of(INT)), &small(&large(int)), ASSIGNS);
    go("list-of-list-to-22-of-22", &crate::bytes::list(&of(INT)), &large(&large(int)), ASSIGNS);
    go("list-of-22-to-22-of-14", &crate::bytes::list(&large(int)), &large(&small(int)), ASSIGNS);
    go("22-of-22-to-22-of-list", &large(&large(int)), &large(&of(INT)), DIFFERS);
    go("list-of-22-to-list-of-boolean", &crate::bytes::list(&large(int)), &of(BOOLEAN), ASSIGNS);
    go("22-of-int-to-22-of-22", &large(int), &large(&large(int)), DIFFERS);
    go("22-of-22-to-22-of-int", &large(&large(int)), &large(int), DIFFERS);
    go("22-of-nullable-int-to-14-of-int", &large(&nullable(int)), &small(int), ASSIGNS);
    go("14-of-int-to-22-of-nullable-int", &small(int), &large(&nullable(int)), ASSIGNS);
    go("22-of-nullable-string-to-14-of-int", &large(&nullable(&[STRING])), &small(int), DIFFERS);
    go("22-of-nullable-nothing-to-14-of-int", &large(&nullable(&[NOTHING])), &small(int), ASSIGNS);
    go("14-of-any-to-22-of-int", &small(&[ANY]), &large(int), ASSIGNS);
    go("22-of-int-to-14-of-any", &large(int), &small(&[ANY]), ASSIGNS);
    go("22-of-error-to-14-of-int", &large(&[ERROR]), &small(int), ASSIGNS);
    go("14-of-nothing-to-22-of-int", &small(&[NOTHING]), &large(int), ASSIGNS);
    go("22-of-pointer-to-14-of-pointer", &large(&pointer(int)), &small(&pointer(int)), ASSIGNS);
    go("22-of-pointer-to-14-of-pointer-to-long", &large(&pointer(int)), &small(&pointer(long)), DIFFERS);
}

/// Document 02, order 2: "at every depth where assignability compares types".
fn classes(list: &mut List) {
    list.of("a_class_in_a_large_array_goes_where_its_superclass_is_expected");
    for (name, from, to, up, down) in [
        ("22-to-22-of-another-size", large(&named(A)), array(Some(GREATEST), &named(B)), ASSIGNS, DIFFERS),
        ("14-to-22", array(Some(3), &named(A)), large(&named(B)), ASSIGNS, DIFFERS),
        ("22-to-14", large(&named(A)), array(None, &named(B)), ASSIGNS, DIFFERS),
        ("list-to-22", crate::bytes::list(&named(A)), large(&named(B)), ASSIGNS, DIFFERS),
        ("pointer-to-22", pointer(&large(&named(A))), pointer(&large(&named(B))), DIFFERS, DIFFERS),
    ] {
        let mut table = base();
        table.class(B, NONE, NONE, true);
        table.class(A, B, NONE, true);
        table.plain(F, &[BOOLEAN], &[(P, 0, to.clone())]);
        table.plain(Q, &[BOOLEAN], &[(P, 0, from.clone())]);
        put(list, &format!("a-class-by-{}", name), &table, call(F, &[leaf(&from)]), up);
        put(list, &format!("a-superclass-by-{}-back", name), &table, call(Q, &[leaf(&to)]), down);
    }
}

/// Pointer, Map and Function are equal or not, and so are their sizes.
fn whole(list: &mut List) {
    list.of("what_holds_a_large_array_and_is_no_array_is_compared_whole");
    let holders: [(&str, fn(&[u8]) -> Bytes); 7] = [
        ("pointer", pointer),
        ("map-key", |x| map(x, &[INT])),
        ("map-value", |x| map(&[INT], x)),
        ("function-parameter", |x| function(&[x], &[INT])),
        ("function-result", |x| function(&[], x)),
        ("array-of-pointer", |x| array(None, &pointer(x))),
        ("large-array-of-map", |x| large(&map(&[STRING], x))),
    ];
    let (int, other) = (large(&[INT]), array(Some(LEAST + 1), &[INT]));
    for (name, hold) in holders {
        let mut go = |what: &str, from: &[u8], to: &[u8], expected: &str| {
            pass(list, &format!("{}-{}", name, what), &hold(from), &hold(to), expected);
        };
        go("of-equal-22", &int, &int, ASSIGNS);
        go("of-22-of-another-size", &int, &other, DIFFERS);
        go("of-14-to-22", &array(Some(0), &[INT]), &int, DIFFERS);
        go("of-22-to-14", &int, &array(None, &[INT]), DIFFERS);
        go("of-22-of-another-element", &int, &large(&[LONG]), DIFFERS);
        go("of-list-to-22", &of(INT), &int, DIFFERS);
    }
}

/// f by what its parameter is, in order: a Char, a Boolean, a Double.
fn list_of(params: &[Bytes]) -> Table {
    let mut table = base();
    for (ty, result) in params.iter().zip([CHAR, BOOLEAN, DOUBLE]) {
        table.plain(F, &[result], &[(P, 0, ty.clone())]);
    }
    table
}

fn overloads(list: &mut List) {
    list.of("equal_bytes_score_2_and_an_array_of_another_width_1");
    let (first, second, third) = ("0 1 1 07 0", "0 1 1 06 0", "0 1 1 05 0");
    let (tie, no_match) = ("0 0 1 07 1/19 0 2", "0 0 1 15 1/18 0 0");
    let both = list_of(&[large(&[INT]), array(None, &[INT])]);
    let mut ask = |name: &str, table: &Table, ty: &[u8], expected: &str| {
        put(list, &format!("overloads-{}", name), table, call(F, &[leaf(ty)]), expected);
    };
    ask("22-and-14-given-22", &both, &large(&[INT]), first);
    ask("22-and-14-given-14", &both, &array(None, &[INT]), second);
    ask("22-and-14-given-22-of-another-size", &both, &array(Some(LEAST + 1), &[INT]), tie);
    ask("22-and-14-given-14-of-another-size", &both, &array(Some(0), &[INT]), tie);
    ask("22-and-14-given-22-of-long", &both, &large(&[LONG]), tie);
    ask("22-and-14-given-a-list", &both, &of(INT), tie);
    ask("22-and-14-given-named-array-list", &both, &named(2), tie);
    ask("22-and-14-given-named-list", &both, &named(1), no_match);
    ask("22-and-14-given-22-of-boolean", &both, &large(&[BOOLEAN]), no_match);
    ask("22-and-14-given-nullable-22", &both, &nullable(&large(&[INT])), tie);
    let sizes = list_of(&[large(&[INT]), array(Some(LEAST + 1), &[INT]), array(Some(GREATEST), &[INT])]);
    ask("three-sizes-given-the-first", &sizes, &large(&[INT]), first);
    ask("three-sizes-given-the-second", &sizes, &array(Some(LEAST + 1), &[INT]), second);
    ask("three-sizes-given-the-third", &sizes, &array(Some(GREATEST), &[INT]), third);
    ask("three-sizes-given-14", &sizes, &array(Some(1), &[INT]), "0 0 1 07 1/19 0 3");
    let beside_list = list_of(&[of(INT), array(Some(3), &[INT])]);
    ask("list-and-14-given-22", &beside_list, &large(&[INT]), second);
    ask("list-and-14-given-22-of-boolean", &beside_list, &large(&[BOOLEAN]), no_match);
    let elements = list_of(&[large(&[LONG]), array(None, &[BOOLEAN]), array(Some(GREATEST), &[INT])]);
    ask("by-element-given-22-of-boolean", &elements, &large(&[BOOLEAN]), second);
    ask("by-element-given-22-of-long", &elements, &large(&[LONG]), first);
    ask("by-element-given-14-of-int", &elements, &array(None, &[INT]), "0 0 1 07 1/19 0 2");
}

fn overloads_in_calls(list: &mut List) {
    list.of("large_arrays_as_arguments_of_every_form");
    let (small, int) = (array(Some(7), &[INT]), large(&[INT]));
    let mut table = base();
    table.plain(F, &[CHAR], &[(P, 0, int.clone()), (Q, 0, small.clone())]);
    table.plain(F, &[BOOLEAN], &[(P, 0, small.clone()), (Q, 0, int.clone())]);
    let (p, q) = (|ty: &[u8]| named_arg(P, &leaf(ty)), |ty: &[u8]| named_arg(Q, &leaf(ty)));
    let mut ask = |name: &str, args: &[Bytes], expected: &str| {
        put(list, &format!("arguments-{}", name), &table, call(F, args), expected);
    };
    ask("22-and-14", &[leaf(&int), leaf(&small)], "0 1 1 07 0");
    ask("14-and-22", &[leaf(&small), leaf(&int)], "0 1 1 06 0");
    ask("22-and-22", &[leaf(&int), leaf(&int)], "0 0 1 07 1/19 0 2");
    ask("by-name-22-and-14", &[q(&small), p(&int)], "0 1 1 07 0");
    ask("by-name-14-and-22", &[q(&int), p(&small)], "0 1 1 06 0");
    ask("q-by-name-22", &[q(&int), leaf(&small)], "0 1 1 06 0");
    ask("q-by-name-22-of-boolean", &[q(&large(&[BOOLEAN])), leaf(&small)], "0 0 1 15 1/18 0 0");
    let mut one = base();
    one.function(A, F, 0, false, &int, &[(P, 0, int.clone()), (Q, VARARG, int.clone())]);
    let mut ask = |name: &str, args: &[Bytes], expected: &str| {
        put(list, &format!("method-{}", name), &one, method(F, &leaf(&named(A)), args), expected);
    };
    let passes = format!("0 1 11 {} 0", LARGE_INT);
    ask("given-22", &[leaf(&int)], &passes);
    ask("given-14-and-a-vararg", &[leaf(&small), l(STRING)], &passes);
    ask("given-a-list-and-two-left-over", &[leaf(&of(INT)), leaf(&small), l(CHAR), l(CHAR)], &passes);
    ask("given-22-of-boolean", &[leaf(&large(&[BOOLEAN]))], &format!("0 0 11 {} 1/17 2 1", LARGE_INT));
    let on = method(F, &leaf(&large(&named(A))), &[unary(MINUS, &l(STRING))]);
    put(list, "method-of-a-large-array-is-any-arguments-unvisited", &one, on, "0 1 1 09 0");
}

fn members(list: &mut List) {
    list.of("members_of_a_large_array");
    let none = Table::new();
    for (name, expected) in [
        ("size", "0 1 1 00 0"),
        ("count", "0 1 1 00 0"),
        ("isEmpty", "0 1 1 06 0"),
        ("first", "0 1 1 07 0"),
        ("last", "0 1 1 07 0"),
        ("get", "0 1 1 07 0"),
        ("getAt", "0 1 1 07 0"),
        ("set", "0 1 1 0b 0"),
        ("second", "0 0 1 15 1/22 0 0"),
        ("add", "0 0 1 15 1/22 0 0"),
        ("push", "0 0 1 15 1/22 0 0"),
        ("contains", "0 0 1 15 1/22 0 0"),
        ("length", "0 0 1 15 1/22 0 0"),
        ("keys", "0 0 1 15 1/22 0 0"),
        ("toString", "0 0 1 15 1/22 0 0"),
    ] {
        let on = |ty: &[u8]| member(built_in(name), &leaf(ty));
        put(list, &format!("member-{}-of-22", name), &none, on(&large(&[CHAR])), expected);
        put(list, &format!("member-{}-of-the-largest", name), &none, on(&array(Some(GREATEST), &[CHAR])), expected);
        put(
            list,
            &format!("member-{}-of-nullable-22", name),
            &none,
            on(&nullable(&large(&[CHAR]))),
            "0 0 1 15 1/21 0 0",
        );
    }
}

fn elements_as_members(list: &mut List) {
    list.of("members_of_a_large_array");
    let none = Table::new();
    let first = |object: &[u8]| member(built_in("first"), object);
    let (outer, inner) = (large(&array(Some(3), &[INT])), array(Some(3), &large(&[INT])));
    put(list, "first-of-22-of-14", &none, first(&leaf(&outer)), "0 1 7 0e010300000000 0");
    put(list, "first-of-14-of-22", &none, first(&leaf(&inner)), &format!("0 1 11 {} 0", LARGE_INT));
    put(list, "first-of-first-of-22-of-14", &none, first(&first(&leaf(&outer))), "0 1 1 00 0");
    put(list, "first-of-first-of-14-of-22", &none, first(&first(&leaf(&inner))), "0 1 1 00 0");
    put(list, "first-of-22-of-named", &none, first(&leaf(&large(&named(39)))), "0 1 3 112700 0");
    let mut table = base();
    table.function(A, F, 0, false, &large(&[INT]), &[]);
    table.visibility(A, built_in("size"), 3);
    let as_member = member(F, &leaf(&named(A)));
    put(list, "a-function-type-of-22", &table, as_member, &format!("0 1 13 1200{} 0", LARGE_INT));
    let unseen = member(built_in("size"), &leaf(&large(&named(A))));
    put(list, "visibility-is-not-asked-for-22", &table, unseen, "0 1 1 00 0");
}

fn comparisons(list: &mut List) {
    list.of("comparisons_of_large_arrays");
    let (int, other, small) = (large(&[INT]), array(Some(GREATEST), &[INT]), array(Some(3), &[INT]));
    let (related, unrelated) = ("0 1 1 06 0", "0 0 1 06 1/4 0 0");
    let none = Table::new();
    for (name, left, right, equal, less) in [
        ("22-and-the-same", int.clone(), int.clone(), related, related),
        ("22-and-22-of-another-size", int.clone(), other, related, "0 0 1 06 1/5 0 0"),
        ("22-and-14", int.clone(), small.clone(), related, "0 0 1 06 1/5 0 0"),
        ("22-and-22-of-boolean", int.clone(), large(&[BOOLEAN]), unrelated, "0 0 1 06 1/5 0 0"),
        ("22-and-14-of-boolean", int.clone(), array(None, &[BOOLEAN]), unrelated, "0 0 1 06 1/5 0 0"),
        ("22-and-a-list", int.clone(), of(INT), related, "0 0 1 06 1/5 0 0"),
        ("22-and-a-list-of-boolean", int.clone(), of(BOOLEAN), unrelated, "0 0 1 06 1/5 0 0"),
        ("22-and-named-array-list", int.clone(), named(2), related, "0 0 1 06 1/5 0 0"),
        ("22-and-named-list", int.clone(), named(1), unrelated, "0 0 1 06 1/5 0 0"),
        ("22-and-any", int.clone(), t(ANY), related, related),
        ("22-and-int", int.clone(), t(INT), unrelated, "0 0 1 06 1/5 0 0"),
        ("22-and-nullable-14", int.clone(), nullable(&small), related, "0 0 1 15 1/1 0 0"),
        ("22-and-null", int.clone(), nullable(&[NOTHING]), related, "0 0 1 15 1/1 0 0"),
        ("pointers-to-22-and-14", pointer(&int), pointer(&small), unrelated, "0 0 1 06 1/5 0 0"),
        ("22-and-error", int, t(ERROR), "0 0 1 15 0", "0 0 1 15 0"),
    ] {
        let (one, two) = (leaf(&left), leaf(&right));
        put(list, &format!("equality-of-{}", name), &none, binary(EQ, &one, &two), equal);
        put(list, &format!("equality-of-{}-turned", name), &none, binary(EQ + 1, &two, &one), equal);
        put(list, &format!("order-of-{}", name), &none, binary(LT, &one, &two), less);
    }
}

fn binary_operators(list: &mut List) {
    list.of("other_operators_on_large_arrays");
    let none = Table::new();
    let int = leaf(&large(&[INT]));
    let text = |rest: &str| format!("0 {}", rest.replace("22", &format!("11 {}", LARGE_INT)));
    let mut ask = |name: &str, tree: Bytes, expected: &str| put(list, name, &none, tree, expected);
    ask("22-plus-22", binary(ADD, &int, &int), "0 0 1 15 1/2 0 0");
    ask("22-plus-string", binary(ADD, &int, &l(STRING)), "0 1 1 08 0");
    ask("22-minus-int", binary(SUB, &int, &l(INT)), "0 0 1 15 1/3 0 0");
    ask("nullable-22-plus-string", binary(ADD, &leaf(&nullable(&large(&[INT]))), &l(STRING)), "0 0 1 15 1/1 0 0");
    ask("22-and-and-22", binary(AND, &int, &int), "0 0 1 06 2/6 0 1/6 0 2");
    ask("22-bit-and-int", binary(BIT_AND, &int, &l(INT)), &text("0 22 1/7 0 0"));
    ask("22-bit-and-any", binary(BIT_AND, &int, &l(ANY)), &text("1 22 0"));
    ask("22-assigned", binary(ASSIGN, &l(INT), &int), &text("1 22 0"));
    ask("22-as-right", binary(AS, &l(INT), &int), &text("1 22 0"));
    ask("22-as-int", binary(AS, &int, &l(INT)), "0 1 1 00 0");
    ask("22-to-22", binary(TO, &int, &int), "0 1 3 110000 0");
    ask("22-is-14", binary(IS, &int, &leaf(&array(None, &[INT]))), "0 1 1 06 0");
    ask("22-plus-error", binary(ADD, &int, &l(ERROR)), "0 0 1 15 0");
}

fn unary_operators(list: &mut List) {
    list.of("unary_operators_on_large_arrays");
    let none = Table::new();
    let int = leaf(&large(&[INT]));
    let text = |rest: &str| format!("0 {}", rest.replace("22", &format!("11 {}", LARGE_INT)));
    let mut ask = |name: &str, tree: Bytes, expected: &str| put(list, name, &none, tree, expected);
    ask("minus-22", unary(MINUS, &int), &text("0 22 1/9 0 0"));
    ask("not-22", unary(NOT, &int), "0 0 1 06 1/10 0 0");
    ask("increment-22", unary(INCREMENT, &int), &text("0 22 1/11 0 0"));
    ask("address-of-22", unary(ADDR_OF, &int), &format!("0 1 12 0d{} 0", LARGE_INT));
    ask("dereferenced-22", unary(DEREFERENCE, &int), "0 0 1 15 1/12 0 0");
    ask("dereferenced-pointer-to-22", unary(DEREFERENCE, &leaf(&pointer(&large(&[INT])))), &text("1 22 0"));
    ask("dereferenced-address-of-22", unary(DEREFERENCE, &unary(ADDR_OF, &int)), &text("1 22 0"));
    ask("not-null-22", unary(NOT_NULL, &int), "0 0 1 15 1/13 0 0");
    ask("minus-nullable-22", unary(MINUS, &leaf(&nullable(&large(&[INT])))), "0 0 1 15 1/8 0 0");
    ask("named-argument-of-22", named_arg(1, &int), &text("1 22 0"));
}
