//! Questions at the edges of the format: headers, each node cut behind each of its bytes, each id, counts, and types at
//! their limits.

use super::List;
use crate::bytes::*;
use crate::name::NONE;

pub fn add(list: &mut List) {
    headers(list);
    cut_nodes(list);
    operators(list);
    ids(list);
    eight_before_ten(list);
    counts(list);
    types(list);
}

fn headers(list: &mut List) {
    list.of("headers_of_questions");
    for len in 1..4 {
        list.question(&format!("header-of-{}-bytes", len), vec![255; len], 8);
    }
    let under = |current: u16, package: u16, suspend: u8| {
        let mut bytes = question_in(current, package, false, &leaf(&[INT]));
        bytes[4] = suspend;
        bytes
    };
    let int = "0 1 1 00 0";
    list.raw("question.suspend-byte-1", vec![], under(NONE, NONE, 1), int);
    list.question("suspend-byte-255", under(NONE, NONE, 255), 8);
    list.raw("question.current-type-and-package-39", vec![], under(39, 39, 0), int);
    list.question("current-type-65534", under(65_534, NONE, 0), 10);
    list.question("package-65534", under(NONE, 65_534, 0), 10);
    list.ask("question.10-package-41-of-one-name", &Table::with_names(&["a"]), under(40, 41, 0), "10 0 0 - 0");
    list.ask("question.package-41-of-two-names", &Table::with_names(&["a", "b"]), under(40, 41, 0), int);
}

fn cut_nodes(list: &mut List) {
    list.of("a_cut_node_and_a_byte_behind_the_tree");
    let int = leaf(&[INT]);
    let whole = [
        (leaf(&crate::bytes::list(&[INT])), "0 1 2 0f00 0"),
        (binary(ADD, &int, &int), "0 1 1 00 0"),
        (unary(MINUS, &int), "0 1 1 00 0"),
        (named_arg(1, &int), "0 1 1 00 0"),
        (member(22, &leaf(&crate::bytes::list(&[INT]))), "0 1 1 00 0"),
        (call(1, &[int.clone()]), "0 0 1 15 0"),
        (method(1, &int, &[int.clone()]), "0 1 1 09 0"),
    ];
    for (kind, (tree, expected)) in whole.into_iter().enumerate() {
        for len in 1..tree.len() {
            list.question(&format!("kind-{}-cut-at-{}", kind, len), question(&tree[..len]), 8);
        }
        let behind = question(&[&tree[..], &[0]].concat());
        list.question(&format!("a-byte-behind-kind-{}", kind), behind, 8);
        list.raw(&format!("question.kind-{}-whole", kind), vec![], question(&tree), expected);
    }
}

fn operators(list: &mut List) {
    list.of("the_last_operators_and_kinds");
    let int = leaf(&[INT]);
    list.raw("question.binary-operator-22", vec![], question(&binary(22, &int, &int)), "0 1 1 00 0");
    list.question("binary-operator-255", question(&binary(255, &int, &int)), 8);
    list.question("unary-operator-255", question(&unary(255, &int)), 8);
    list.question("node-kind-255", question(&[255]), 8);
}

fn ids(list: &mut List) {
    list.of("every_id_of_a_node");
    let int = leaf(&[INT]);
    let trees = |id: u16| {
        [
            ("named", leaf(&named(id)), "0 1 3 112700 0"),
            ("module", leaf(&module(id)), "0 1 3 142700 0"),
            ("named-argument", named_arg(id, &int), "0 1 1 00 0"),
            ("member", member(id, &int), "0 0 1 15 1/23 0 0"),
            ("call", call(id, &[]), "0 0 1 15 0"),
            ("method-call", method(id, &int, &[]), "0 1 1 09 0"),
        ]
    };
    for (what, tree, expected) in trees(39) {
        list.raw(&format!("question.{}-39", what), vec![], question(&tree), expected);
    }
    for id in [40, NONE] {
        for (what, tree, _) in trees(id) {
            list.question(&format!("{}-{}", what, id), question(&tree), 10);
        }
    }
    let names = Table::with_names(&["a"]);
    list.tree("question.member-40-of-one-name", &names, member(40, &leaf(&[ANY])), "0 1 1 09 0");
    list.tree("question.10-member-41-of-one-name", &names, member(41, &leaf(&[ANY])), "10 0 0 - 0");
}

fn eight_before_ten(list: &mut List) {
    list.of("eight_before_ten_within_a_node");
    for (name, tree) in [
        ("a-call-cut", vec![5, 40, 0]),
        ("a-method-call-cut", vec![6, 40, 0]),
        ("17-arguments", vec![5, 40, 0, 17]),
        ("a-type-cut", vec![0, 16, 17, 40, 0]),
        ("a-malformed-type", vec![0, 16, 17, 40, 0, 23]),
    ] {
        list.question(&format!("{}-behind-an-undefined-id", name), question(&tree), 8);
    }
    list.question("an-undefined-id-before-a-cut-leaf", question(&[4, 40, 0, 0]), 10);
}

fn counts(list: &mut List) {
    list.of("counts_of_arguments_and_nodes");
    let int = leaf(&[INT]);
    let on_int = |n: usize| question(&method(0, &int, &vec![int.clone(); n]));
    list.raw("question.a-method-call-of-16-arguments", vec![], on_int(16), "0 1 1 09 0");
    list.question("a-method-call-of-17-arguments", on_int(17), 8);
    // Calls in each other, each of so many arguments; the last has leaves alone.
    let rows = |last: usize| {
        let first = call(0, &vec![int.clone(); last]);
        let around = |inner: Bytes, _| call(0, &[vec![int.clone(); 15], vec![inner]].concat());
        question(&(0..3).fold(first, around))
    };
    list.raw("question.64-nodes-in-rows", vec![], rows(15), "0 0 1 15 0");
    list.question("65-nodes-in-rows", rows(16), 9);
}

fn types(list: &mut List) {
    list.of("types_of_leaves_at_192_bytes");
    for (kind, digits) in [(13, "0d"), (15, "0f")] {
        let deep = |n: usize| question(&leaf(&[vec![kind; n], vec![INT]].concat()));
        let expected = format!("0 1 192 {}00 0", digits.repeat(191));
        list.raw(&format!("question.a-leaf-of-kind-{}-and-192-bytes", kind), vec![], deep(191), &expected);
        list.question(&format!("a-leaf-of-kind-{}-without-end", kind), deep(192), 11);
    }
    let nullable_name = |id: u16| question(&leaf(&nullables(189, &named(id))));
    let expected = format!("0 1 192 {}112700 0", "0c".repeat(189));
    list.raw("question.a-body-that-ends-at-the-192nd-byte", vec![], nullable_name(39), &expected);
    list.question("an-undefined-id-that-ends-at-the-192nd-byte", nullable_name(40), 10);
    list.question("a-type-kind-of-255", question(&[0, 255]), 8);
}
