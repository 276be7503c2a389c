//! Document 02, order 6: "The class record gains two interface ids behind its superclass, 65,535 for none; an interface with a
//! record needs it earlier, else number 6, and undefined ones get 4. Assignability reaches through superclass and interfaces
//! alike; protected access and operator methods climb superclasses only."

use super::{l, refused, List, ASSIGNS, DIFFERS};
use crate::bytes::*;
use crate::name::{built_in, NONE};

// Built-in names that serve as classes, packages, a function, its parameters and a field: no name record is needed.
const A: u16 = 20;
const B: u16 = 21;
const C: u16 = 22;
const D: u16 = 23;
const Z: u16 = 24;
const PKG: u16 = 25;
const LIB: u16 = 26;
const F: u16 = 29;
const P: u16 = 30;
const Q: u16 = 31;

/// The only name of a table, where it has one.
const T: u16 = 40;

pub fn add(list: &mut List) {
    each_parent(list);
    ways(list);
    two_ways(list);
    towers(list);
    every_record(list);
    without_records(list);
    repeated(list);
    late(list);
    undefined(list);
    lowest_numbers(list);
    fields(list);
    cut_and_older(list);
    depths(list);
    whole_types(list);
    list_names(list);
    overloads(list);
    comparisons(list);
    protected(list);
    operator_methods(list);
    page_classes(list);
}

/// The parents of a class by one of the three places.
fn only(place: usize, parent: u16) -> [u16; 3] {
    let mut parents = [NONE; 3];
    parents[place] = parent;
    parents
}

const PLACES: [&str; 3] = ["superclass", "first-interface", "second-interface"];

/// Classes with their parents, in order, all in `types`.
fn classes(records: &[(u16, [u16; 3])]) -> Table {
    let mut table = Table::new();
    for (class, parents) in records {
        table.class_below(*class, *parents, NONE, true);
    }
    table
}

/// Whether a type goes where another is expected: one overload f(p: `to`): Boolean, called with a leaf.
fn goes(list: &mut List, name: &str, table: &Table, from: &[u8], to: &[u8], expected: &str) {
    let mut table = table.clone();
    table.plain(F, &[BOOLEAN], &[(P, 0, to.to_vec())]);
    list.tree(&format!("order6.{}", name), &table, call(F, &[leaf(from)]), expected);
}

/// Classes one where another is expected.
fn class_goes(list: &mut List, name: &str, table: &Table, from: u16, to: u16, expected: &str) {
    goes(list, name, table, &named(from), &named(to), expected);
}

/// A below B as superclass, C as first interface and Z as second.
fn three() -> Table {
    classes(&[(Z, [NONE; 3]), (C, [NONE; 3]), (B, [NONE; 3]), (A, [B, C, Z])])
}

fn each_parent(list: &mut List) {
    list.of("assignability_reaches_through_superclass_and_interfaces_alike");
    for (name, parent) in PLACES.into_iter().zip([B, C, Z]) {
        class_goes(list, &format!("to-its-{}", name), &three(), A, parent, ASSIGNS);
        class_goes(list, &format!("not-from-its-{}", name), &three(), parent, A, DIFFERS);
    }
    class_goes(list, "the-superclass-does-not-go-to-an-interface", &three(), B, C, DIFFERS);
    class_goes(list, "an-interface-does-not-go-to-the-superclass", &three(), C, B, DIFFERS);
    class_goes(list, "an-interface-does-not-go-to-the-other", &three(), C, Z, DIFFERS);
    class_goes(list, "to-no-class-that-is-none-of-the-three", &three(), A, D, DIFFERS);
    for (place, name) in PLACES.into_iter().enumerate() {
        let alone = classes(&[(B, [NONE; 3]), (A, only(place, B))]);
        class_goes(list, &format!("to-its-{}-alone", name), &alone, A, B, ASSIGNS);
        class_goes(list, &format!("not-to-a-class-beside-its-{}", name), &alone, A, C, DIFFERS);
    }
    let none = classes(&[(B, [NONE; 3]), (A, [NONE; 3])]);
    class_goes(list, "65535-is-no-interface", &none, A, B, DIFFERS);
    class_goes(list, "the-package-is-no-interface", &with_package(), A, B, DIFFERS);
}

/// A in package B, which has a record.
fn with_package() -> Table {
    let mut table = classes(&[(B, [NONE; 3])]);
    table.class(A, NONE, B, true);
    table
}

/// A class two steps up by every mix of the three places, and four steps up by some.
fn ways(list: &mut List) {
    list.of("a_class_is_reached_by_any_mix_of_superclass_and_interface_steps");
    for (first, one) in PLACES.into_iter().enumerate() {
        for (second, other) in PLACES.into_iter().enumerate() {
            let table = classes(&[(C, [NONE; 3]), (B, only(second, C)), (A, only(first, B))]);
            class_goes(list, &format!("by-{}-then-{}", one, other), &table, A, C, ASSIGNS);
            class_goes(list, &format!("not-down-by-{}-then-{}", one, other), &table, C, A, DIFFERS);
        }
    }
    for (name, places) in [("1-0-2-1", [1, 0, 2, 1]), ("2-1-0-0", [2, 1, 0, 0]), ("0-2-2-1", [0, 2, 2, 1])] {
        let chain = [A, B, C, Z, D];
        let records: Vec<(u16, [u16; 3])> = (0..4).rev().map(|i| (chain[i], only(places[i], chain[i + 1]))).collect();
        class_goes(list, &format!("four-steps-{}", name), &classes(&records), A, D, ASSIGNS);
    }
}

/// A diamond: A below B and C, both below Z. A typing is there once, whichever way is taken.
fn two_ways(list: &mut List) {
    list.of("a_class_that_is_reached_along_two_ways");
    for (left, one) in PLACES.into_iter().enumerate() {
        for (right, other) in PLACES.into_iter().enumerate().filter(|(right, _)| *right > left) {
            for (above, name) in PLACES.into_iter().enumerate() {
                let mut parents = [NONE; 3];
                (parents[left], parents[right]) = (B, C);
                let table = classes(&[(Z, [NONE; 3]), (C, only(above, Z)), (B, only(above, Z)), (A, parents)]);
                class_goes(list, &format!("diamond-{}-{}-{}", one, other, name), &table, A, Z, ASSIGNS);
            }
        }
    }
    let half = classes(&[(Z, [NONE; 3]), (C, [NONE; 3]), (B, only(2, Z)), (A, [C, B, C])]);
    class_goes(list, "the-first-way-ends-early", &half, A, Z, ASSIGNS);
    let other = classes(&[(Z, [NONE; 3]), (C, [NONE; 3]), (B, only(0, Z)), (A, [B, C, NONE])]);
    class_goes(list, "the-second-way-ends-early", &other, A, Z, ASSIGNS);
    let again = classes(&[(Z, [NONE; 3]), (C, only(0, Z)), (B, only(1, C)), (A, [B, C, Z])]);
    class_goes(list, "reached-again-from-each-class-on-the-way", &again, A, Z, ASSIGNS);
    class_goes(list, "not-down-along-two-ways", &again, Z, A, DIFFERS);
}

/// Twenty levels of three classes, each with all three of the level above: 3^19 ways from the lowest to the top.
fn towers(list: &mut List) {
    list.of("a_tower_of_three_parents_each");
    let mut table = Table::new();
    let first = table.name("L0");
    for i in 1..60 {
        table.name(&format!("L{}", i));
    }
    for level in 0..20 {
        let at = first + 3 * level;
        let parents = if level == 0 { [NONE; 3] } else { [at - 1, at - 3, at - 2] };
        (at..at + 3).for_each(|class| table.class_below(class, parents, NONE, true));
    }
    class_goes(list, "from-the-lowest-of-a-tower-to-its-top", &table, first + 57, first, ASSIGNS);
    class_goes(list, "from-the-lowest-of-a-tower-to-the-middle", &table, first + 59, first + 28, ASSIGNS);
    class_goes(list, "not-from-the-top-of-a-tower", &table, first, first + 57, DIFFERS);
    class_goes(list, "not-to-a-class-beside-a-tower", &table, first + 57, A, DIFFERS);
    class_goes(list, "not-within-a-level-of-a-tower", &table, first + 57, first + 58, DIFFERS);
}

fn every_record(list: &mut List) {
    list.of("every_class_record_leads_on_in_types_or_not");
    for flags in 0..8u8 {
        let mut table = Table::new();
        for (bit, class, parents) in [(0, C, [NONE; 3]), (1, B, only(1, C)), (2, A, only(2, B))] {
            table.class_below(class, parents, NONE, flags >> bit & 1 == 1);
        }
        class_goes(list, &format!("through-interfaces-with-flags-{}", flags), &table, A, C, ASSIGNS);
    }
    let mut letter = Table::with_names(&["T"]);
    letter.class_below(T, only(1, B), NONE, false);
    letter.class_below(A, only(2, T), NONE, true);
    class_goes(list, "through-one-capital-letter", &letter, A, B, ASSIGNS);
    class_goes(list, "from-one-capital-letter-to-its-interface", &letter, T, B, ASSIGNS);
}

fn without_records(list: &mut List) {
    list.of("an_interface_without_a_record_is_reached_and_the_way_ends_there");
    for place in [1, 2] {
        let name = PLACES[place];
        let bare = classes(&[(C, [NONE; 3]), (A, only(place, B))]);
        class_goes(list, &format!("a-{}-without-a-record", name), &bare, A, B, ASSIGNS);
        class_goes(list, &format!("the-way-ends-at-a-{}-without-a-record", name), &bare, A, C, DIFFERS);
        class_goes(list, &format!("not-from-a-{}-without-a-record", name), &bare, B, A, DIFFERS);
        let above = classes(&[(C, only(place, B)), (A, only(3 - place, C))]);
        class_goes(list, &format!("a-{}-without-a-record-two-steps-up", name), &above, A, B, ASSIGNS);
        let built = classes(&[(A, only(place, built_in("Set")))]);
        class_goes(list, &format!("a-built-in-name-as-a-{}", name), &built, A, built_in("Set"), ASSIGNS);
    }
    let all = classes(&[(A, [B, C, Z])]);
    for (name, parent) in PLACES.into_iter().zip([B, C, Z]) {
        class_goes(list, &format!("three-without-records-{}", name), &all, A, parent, ASSIGNS);
    }
}

fn repeated(list: &mut List) {
    list.of("the_same_interface_twice_and_a_superclass_as_an_interface_are_taken");
    for (name, parents) in [
        ("the-same-interface-twice", [NONE, B, B]),
        ("the-superclass-as-first-interface", [B, B, NONE]),
        ("the-superclass-as-second-interface", [B, NONE, B]),
        ("one-class-in-all-three-places", [B, B, B]),
    ] {
        for (record, records) in [("", &[(C, [NONE; 3]), (B, only(1, C))][..]), ("-without-a-record", &[])] {
            let mut table = classes(records);
            table.class_below(A, parents, NONE, true);
            class_goes(list, &format!("{}{}", name, record), &table, A, B, ASSIGNS);
            class_goes(list, &format!("not-aside-{}{}", name, record), &table, A, Z, DIFFERS);
        }
    }
}

/// An example under a table that is refused, or accepted with an Int.
fn put(list: &mut List, name: &str, table: Bytes, number: u8) {
    let front = if number == 0 { String::new() } else { format!("{}-", number) };
    list.table(&format!("order6.table.{}{}", front, name), table, number);
}

/// A class record with built-in ids.
fn class(name: u16, parents: [u16; 3]) -> Bytes {
    class_record(name, parents, NONE, 1)
}

fn late(list: &mut List) {
    list.of("an_interface_with_a_record_needs_it_earlier_else_number_6");
    let other = class(2, [NONE; 3]);
    for (place, name) in PLACES.into_iter().enumerate() {
        let below = class(1, only(place, 2));
        put(list, &format!("a-{}-with-an-earlier-record", name), [&other[..], &below].concat(), 0);
        put(list, &format!("a-{}-with-a-later-record", name), [&below[..], &other].concat(), 6);
        put(list, &format!("a-class-as-its-own-{}", name), class(1, only(place, 1)), 6);
        let far = [&below[..], &class(3, [NONE; 3]), &class(4, [3; 3]), &other].concat();
        put(list, &format!("a-{}-with-a-record-far-behind", name), far, 6);
        let again = [&other[..], &below, &other].concat();
        put(list, &format!("a-{}-with-an-earlier-record-and-a-later-one", name), again, 5);
    }
    put(list, "both-interfaces-late", [class(1, [NONE, 2, 3]), other.clone(), class(3, [NONE; 3])].concat(), 6);
    put(list, "all-three-late", [class(1, [2, 2, 2]), other.clone()].concat(), 6);
    put(list, "the-same-late-interface-twice", [class(1, [NONE, 2, 2]), other.clone()].concat(), 6);
    let mixed = [class(2, [NONE; 3]), class(1, [2, 2, 3]), class(3, [NONE; 3])].concat();
    put(list, "the-second-interface-late-behind-two-that-are-not", mixed, 6);
    let ring = [class(1, [NONE, 2, NONE]), class(2, [NONE, NONE, 1])].concat();
    put(list, "two-classes-as-each-others-interface", ring, 6);
    let first = [class(1, [3, NONE, NONE]), class(2, [NONE, 3, NONE]), class(3, [NONE; 3])].concat();
    put(list, "the-first-faulty-of-two-records", first, 6);
    let late = [class(1, [NONE, 2, NONE]), other].concat();
    list.raw("order6.a-late-interface-before-a-faulty-question", late, vec![], &refused(6));
}

fn undefined(list: &mut List) {
    list.of("undefined_interfaces_get_4");
    let name = Table::with_names(&["A"]).bytes();
    for place in [1, 2] {
        let of = |id: u16| class(1, only(place, id));
        for (id, number) in [(39, 0), (40, 4), (NONE - 1, 4), (NONE, 0)] {
            put(list, &format!("{}-{}", PLACES[place], id), of(id), number);
        }
        put(list, &format!("{}-of-a-name-before", PLACES[place]), [&name[..], &of(40)].concat(), 0);
        put(list, &format!("{}-of-a-name-behind", PLACES[place]), [&of(40)[..], &name].concat(), 4);
    }
    put(list, "both-interfaces-undefined", class(1, [NONE, 40, 40]), 4);
    put(list, "all-three-undefined", class(1, [40, 41, 42]), 4);
    put(list, "one-interface-undefined-beside-one-that-is-not", class(1, [2, 3, 40]), 4);
}

fn lowest_numbers(list: &mut List) {
    list.of("the_lowest_number_of_a_class_with_interfaces");
    let other = class(2, [NONE; 3]);
    put(list, "undefined-before-late", [class(1, [NONE, 2, 40]), other.clone()].concat(), 4);
    put(list, "undefined-before-itself", class(1, [1, 40, NONE]), 4);
    put(
        list,
        "a-class-again-before-a-late-interface",
        [class(3, [NONE; 3]), class(3, [NONE, 2, NONE]), other].concat(),
        5,
    );
    put(
        list,
        "a-class-again-before-itself-as-an-interface",
        [class(3, [NONE; 3]), class(3, [NONE, 3, NONE])].concat(),
        5,
    );
    let malformed = class_record(1, [NONE, 40, 1], NONE, 2);
    put(list, "a-malformed-flag-before-an-undefined-interface", malformed, 2);
    let falls = [vec![7, 255, 255, 0, 0], class(1, [NONE, 40, 1])].concat();
    put(list, "a-kind-that-falls-before-an-undefined-interface", falls, 3);
    let before = [class(1, [NONE, 2, NONE]), class_record(3, [NONE; 3], NONE, 2), class(2, [NONE; 3])].concat();
    put(list, "an-interface-behind-a-malformed-record-is-not-told-apart", before, 2);
}

/// Each field is read from its own place.
fn fields(list: &mut List) {
    list.of("package_and_flag_stand_behind_the_interfaces");
    let table = |parents: [u16; 3], package: u16, in_types: bool| {
        let mut table = Table::new();
        table.class_below(A, parents, package, in_types);
        table.function(A, F, 2, false, &[CHAR], &[]);
        table
    };
    let inside = |package: u16| question_in(NONE, package, false, &method(F, &leaf(&named(A)), &[]));
    let open = table([NONE; 3], LIB, true);
    list.ask("order6.internal-in-the-same-package", &open, inside(LIB), "0 1 1 07 0");
    list.ask("order6.internal-in-another-package", &open, inside(PKG), "0 0 1 07 1/20 0 2");
    for (place, name) in PLACES.into_iter().enumerate() {
        let beside = table(only(place, PKG), LIB, true);
        list.ask(&format!("order6.the-package-beside-a-{}", name), &beside, inside(LIB), "0 1 1 07 0");
        list.ask(&format!("order6.a-{}-is-no-package", name), &beside, inside(PKG), "0 0 1 07 1/20 0 2");
        let none = table(only(place, PKG), NONE, true);
        list.ask(&format!("order6.no-package-beside-a-{}", name), &none, inside(LIB), "0 1 1 07 0");
    }
    let unknown = question(&member(Q, &leaf(&named(A))));
    for (in_types, expected) in [(true, "0 0 1 15 1/22 0 0"), (false, "0 0 1 15 0")] {
        let table = table([B, C, Z], PKG, in_types);
        list.ask(&format!("order6.an-unknown-member-with-in-types-{}", in_types), &table, unknown.clone(), expected);
    }
}

fn cut_and_older(list: &mut List) {
    list.of("a_class_record_has_12_bytes");
    let whole = class(1, [2, 3, 4]);
    for len in 1..CLASS {
        put(list, &format!("cut-at-{}", len), whole[..len].to_vec(), 2);
    }
    put(list, "whole", whole.clone(), 0);
    put(list, "a-byte-behind", [&whole[..], &[0]].concat(), 2);
    // Records of 8 bytes, as they were: alone cut; two and a half of the new length; three, whose kinds are read as ids.
    let older = |class: u8| vec![2, class, 0, 255, 255, 255, 255, 1];
    put(list, "of-8-bytes", older(1), 2);
    put(list, "two-of-8-bytes", [older(1), older(3)].concat(), 2);
    put(list, "three-of-8-bytes", [older(1), older(3), older(4)].concat(), 2);
}

/// What assignability asks itself through, with a class below another by an interface.
fn depths(list: &mut List) {
    list.of("through_interfaces_at_every_depth_where_assignability_compares_types");
    let wraps: [(&str, fn(&[u8]) -> Bytes, fn(&[u8]) -> Bytes); 9] = [
        ("array-to-array", |x| array(None, x), |x| array(Some(3), x)),
        ("large-array-to-array", |x| array(Some(1 << 32), x), |x| array(None, x)),
        ("list-to-array", crate::bytes::list, |x| array(None, x)),
        ("nullable-on-the-left", nullable, |x| x.to_vec()),
        ("nullable-on-the-right", |x| x.to_vec(), nullable),
        ("nullable-on-both-sides", nullable, nullable),
        ("array-of-array", |x| array(None, &array(None, x)), |x| array(None, &array(Some(2), x))),
        ("nullable-list-to-array-of-nullable", |x| nullable(&crate::bytes::list(x)), |x| array(None, &nullable(x))),
        ("under-189-nullables", |x| nullables(189, x), |x| nullables(189, x)),
    ];
    for (name, left, right) in wraps {
        for (way, from, to, expected) in
            [("first", A, C, ASSIGNS), ("second", A, Z, ASSIGNS), ("down", C, A, DIFFERS), ("aside", C, Z, DIFFERS)]
        {
            let (from, to) = (left(&named(from)), right(&named(to)));
            goes(list, &format!("{}-{}", name, way), &three(), &from, &to, expected);
        }
    }
}

fn whole_types(list: &mut List) {
    list.of("what_is_compared_whole_asks_no_interface");
    let wraps: [(&str, fn(&[u8]) -> Bytes); 6] = [
        ("pointer", pointer),
        ("map-by-key", |x| map(x, &[INT])),
        ("map-by-value", |x| map(&[INT], x)),
        ("function-by-parameter", |x| function(&[x], &[UNIT])),
        ("function-by-result", |x| function(&[], x)),
        ("array-of-pointer", |x| array(None, &pointer(x))),
    ];
    for (name, wrap) in wraps {
        let (below, above) = (wrap(&named(A)), wrap(&named(C)));
        goes(list, &format!("{}-of-a-class-not-to-its-interface", name), &three(), &below, &above, DIFFERS);
        goes(list, &format!("{}-of-an-interface-not-to-its-class", name), &three(), &above, &below, DIFFERS);
    }
    let of = crate::bytes::list;
    goes(list, "a-list-of-a-class-to-a-list-of-its-interface", &three(), &of(&named(A)), &of(&named(C)), ASSIGNS);
    goes(list, "an-array-of-a-class-not-to-a-list", &three(), &array(None, &named(A)), &of(&named(C)), DIFFERS);
    goes(list, "a-module-does-not-go-to-an-interface", &three(), &module(A), &named(C), DIFFERS);
}

fn list_names(list: &mut List) {
    list.of("the_list_names_rules_are_not_asked_for_a_class_reached_through_an_interface");
    let of_int = crate::bytes::list(&[INT]);
    for (name, id, other) in [("list", 1, 2), ("array-list", 2, 3), ("mutable-list", 3, 1)] {
        let table = classes(&[(B, [NONE; 3]), (id, only(1, B)), (A, only(2, id))]);
        class_goes(list, &format!("named-{}-to-its-interface", name), &table, id, B, ASSIGNS);
        class_goes(list, &format!("to-named-{}-as-an-interface", name), &table, A, id, ASSIGNS);
        class_goes(list, &format!("through-named-{}-as-an-interface", name), &table, A, B, ASSIGNS);
        class_goes(list, &format!("below-named-{}-no-list-name", name), &table, A, other, DIFFERS);
        goes(list, &format!("below-named-{}-not-to-a-list", name), &table, &named(A), &of_int, DIFFERS);
        goes(list, &format!("a-list-not-below-named-{}", name), &table, &of_int, &named(A), DIFFERS);
        class_goes(list, &format!("another-list-name-not-through-{}", name), &table, other, B, DIFFERS);
    }
}

fn overloads(list: &mut List) {
    list.of("a_class_reached_through_an_interface_scores_1");
    // f(p: first): Char, f(p: second): Boolean, called with a leaf of class A.
    let two = |list: &mut List, name: &str, first: &[u8], second: &[u8], expected: &str| {
        let mut table = three();
        table.name("T");
        table.plain(F, &[CHAR], &[(P, 0, first.to_vec())]);
        table.plain(F, &[BOOLEAN], &[(P, 0, second.to_vec())]);
        list.tree(&format!("order6.{}", name), &table, call(F, &[leaf(&named(A))]), expected);
        let by_name = call(F, &[named_arg(P, &leaf(&named(A)))]);
        list.tree(&format!("order6.{}-by-name", name), &table, by_name, expected);
    };
    let tie = "0 0 1 07 1/19 0 2";
    let (a, b, c, z) = (named(A), named(B), named(C), named(Z));
    two(list, "an-overload-is-chosen-through-an-interface", &c, &named(F), "0 1 1 07 0");
    two(list, "the-second-overload-is-chosen-through-an-interface", &[INT], &z, "0 1 1 06 0");
    two(list, "the-class-itself-beats-its-interface", &c, &a, "0 1 1 06 0");
    two(list, "the-class-itself-beats-its-interface-from-in-front", &a, &z, "0 1 1 07 0");
    two(list, "the-superclass-ties-with-an-interface", &b, &c, tie);
    two(list, "an-interface-ties-with-the-other", &z, &c, tie);
    two(list, "any-ties-with-an-interface", &c, &[ANY], tie);
    two(list, "a-type-variable-ties-with-an-interface", &named(T), &z, tie);
    two(list, "nullable-of-the-class-ties-with-an-interface", &nullable(&a), &z, tie);
    two(list, "neither-of-two-that-are-not-reached", &named(F), &pointer(&c), "0 0 1 15 1/18 0 0");
    let mut both = three();
    both.plain(F, &[CHAR], &[(P, 0, c.clone()), (Q, 0, z.clone())]);
    let tree = |one: u16, other: u16| call(F, &[leaf(&named(one)), leaf(&named(other))]);
    list.tree("order6.two-arguments-through-interfaces", &both, tree(A, A), "0 1 1 07 0");
    list.tree("order6.the-second-argument-is-not-below", &both, tree(A, B), "0 0 1 07 1/17 2 2");
    list.tree("order6.neither-argument-is-below", &both, tree(B, C), "0 0 1 07 2/17 1 1/17 2 2");
    let mut owned = three();
    owned.function(PKG, F, 0, false, &[CHAR], &[(P, 0, z)]);
    let on = |argument: u16| method(F, &leaf(&named(PKG)), &[leaf(&named(argument))]);
    list.tree("order6.a-method-takes-a-class-through-its-interface", &owned, on(A), "0 1 1 07 0");
    list.tree("order6.a-method-does-not-take-another-interface", &owned, on(C), "0 0 1 07 1/17 2 1");
    let mut above = three();
    above.function(C, F, 0, false, &[CHAR], &[]);
    above.field(C, Q, &[LONG]);
    let no_method = method(F, &leaf(&named(A)), &[]);
    list.tree("order6.a-method-of-an-interface-is-not-found", &above, no_method, "0 1 1 09 0");
    let no_field = member(Q, &leaf(&named(A)));
    list.tree("order6.a-field-of-an-interface-is-not-found", &above, no_field, "0 0 1 15 1/22 0 0");
}

fn comparisons(list: &mut List) {
    list.of("comparisons_reach_through_interfaces_in_both_directions");
    let put = |list: &mut List, name: &str, left: &[u8], right: &[u8], expected: &str| {
        for (op, what) in [(EQ, "eq"), (EQ + 1, "ne")] {
            let ways = [("", left, right), ("-the-other-way", right, left)];
            for (way, left, right) in ways {
                let tree = binary(op, &leaf(left), &leaf(right));
                list.tree(&format!("order6.{}-of-{}{}", what, name, way), &three(), tree, expected);
            }
        }
    };
    let (a, c) = (named(A), named(C));
    let (clean, unrelated) = ("0 1 1 06 0", "0 0 1 06 1/4 0 0");
    put(list, "a-class-and-its-first-interface", &a, &c, clean);
    put(list, "a-class-and-its-second-interface", &a, &named(Z), clean);
    put(list, "two-interfaces-of-one-class", &c, &named(Z), unrelated);
    put(list, "a-list-and-an-array-of-an-interface", &crate::bytes::list(&a), &array(None, &c), clean);
    put(list, "pointers-to-a-class-and-its-interface", &pointer(&a), &pointer(&c), unrelated);
    let less = binary(LT, &leaf(&a), &leaf(&c));
    list.tree("order6.lt-asks-no-interface", &three(), less, "0 0 1 06 1/5 0 0");
}

fn protected(list: &mut List) {
    list.of("protected_access_climbs_superclasses_only");
    let ask = |list: &mut List, name: &str, table: &Table, owner: u16, clean: bool| {
        let mut table = table.clone();
        table.function(owner, F, 1, false, &[CHAR], &[]);
        table.field(owner, Q, &[LONG]);
        table.visibility(owner, Q, 1);
        let (object, report) = (leaf(&named(owner)), if clean { "0" } else { "1/20 0 1" });
        let pass = clean as u8;
        let f = question_in(A, NONE, false, &method(F, &object, &[]));
        list.ask(&format!("order6.a-protected-method-of-{}", name), &table, f, &format!("0 {} 1 07 {}", pass, report));
        let q = question_in(A, NONE, false, &member(Q, &object));
        list.ask(&format!("order6.a-protected-field-of-{}", name), &table, q, &format!("0 {} 1 01 {}", pass, report));
    };
    ask(list, "the-superclass", &three(), B, true);
    ask(list, "the-first-interface", &three(), C, false);
    ask(list, "the-second-interface", &three(), Z, false);
    let bare = classes(&[(A, [B, C, NONE])]);
    ask(list, "an-interface-without-a-record", &bare, C, false);
    let up = classes(&[(Z, [NONE; 3]), (C, only(0, Z)), (B, [NONE, C, NONE]), (A, only(0, B))]);
    ask(list, "an-interface-of-the-superclass", &up, C, false);
    ask(list, "the-superclass-of-an-interface", &up, Z, false);
    let both = classes(&[(C, [NONE; 3]), (B, only(0, C)), (A, [B, C, NONE])]);
    ask(list, "a-class-above-by-both", &both, C, true);
    let same = classes(&[(B, [NONE; 3]), (A, [B, B, B])]);
    ask(list, "a-superclass-that-is-an-interface-too", &same, B, true);
}

fn operator_methods(list: &mut List) {
    list.of("operator_methods_climb_superclasses_only");
    let minus = built_in("minus");
    let (found, none) = ("0 1 1 05 0", "0 0 1 15 1/3 0 0");
    let ask = |list: &mut List, name: &str, table: &Table, holder: u16, expected: &str| {
        let mut table = table.clone();
        for class in [A, B, C, Z] {
            table.operators(class, if class == holder { 2 } else { 0 });
        }
        table.function(holder, minus, 0, false, &[DOUBLE], &[]);
        let tree = binary(SUB, &leaf(&named(A)), &l(INT));
        list.tree(&format!("order6.an-operator-method-of-{}", name), &table, tree, expected);
    };
    ask(list, "the-superclass", &three(), B, found);
    ask(list, "the-first-interface", &three(), C, none);
    ask(list, "the-second-interface", &three(), Z, none);
    let alone = classes(&[(C, [NONE; 3]), (A, [NONE, C, NONE])]);
    ask(list, "an-interface-of-a-class-without-a-superclass", &alone, C, none);
    let up = classes(&[(Z, [NONE; 3]), (C, only(0, Z)), (B, [NONE, C, NONE]), (A, only(0, B))]);
    ask(list, "an-interface-of-the-superclass", &up, C, none);
    ask(list, "the-superclass-of-an-interface", &up, Z, none);
    let both = classes(&[(C, [NONE; 3]), (B, only(0, C)), (A, [B, NONE, C])]);
    ask(list, "a-class-above-by-both", &both, C, found);
    // The comparison takes the new rule where no method is found.
    let mut eq = three();
    eq.operators(A, 0);
    eq.operators(C, 1 << 5);
    let compared = binary(EQ, &leaf(&named(A)), &leaf(&named(C)));
    list.tree("order6.a-comparison-where-only-an-interface-has-the-method", &eq, compared, "0 1 1 06 0");
}

/// A page class below Scan that is printable and stored, too: print and store take it, a protected member of Printable stays
/// closed.
fn page_classes(list: &mut List) {
    list.of("a_page_class_that_is_printable_too");
    let mut table = Table::with_names(&["Scan", "Printable", "Stored", "Page", "print", "store", "ink"]);
    let [scan, printable, stored, page, print, store, ink] = [40, 41, 42, 43, 44, 45, 46];
    table.class(scan, NONE, NONE, true);
    table.class(printable, NONE, NONE, true);
    table.class_below(page, [scan, printable, stored], NONE, true);
    table.plain(print, &[BOOLEAN], &[(P, 0, named(printable))]);
    table.plain(store, &[BOOLEAN], &[(P, 0, array(None, &named(stored)))]);
    table.field(printable, ink, &[INT]);
    table.visibility(printable, ink, 1);
    let a_page = leaf(&named(page));
    let pages = leaf(&crate::bytes::list(&named(page)));
    let both = binary(AND, &call(print, &[a_page]), &call(store, &[pages]));
    list.tree("order6.print-a-page-and-store-pages", &table, both, "0 1 1 06 0");
    let scans = call(print, &[leaf(&named(scan))]);
    list.tree("order6.a-scan-is-not-printable", &table, scans, "0 0 1 06 1/17 1 1");
    let closed = question_in(page, NONE, false, &member(ink, &leaf(&named(printable))));
    list.ask("order6.ink-of-printable-is-protected", &table, closed, "0 0 1 00 1/20 0 1");
}
