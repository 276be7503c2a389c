//! A class goes where its superclass or an interface of it is expected (document 02, orders 2 and 6): arguments, overloads,
//! comparisons. Protected access and operator methods go by superclasses alone.

use aura_judge::{judge, Names, Type};

/// The names of the table below, from id 40 on.
const NAMES: [&str; 10] =
    ["Sheet", "Page", "ScannedPage", "Photo", "Font", "PageList", "Printable", "Signed", "Receipt", "Poster"];
const SHEET: u16 = 40;
const PAGE: u16 = 41;
const SCANNED: u16 = 42;
const PHOTO: u16 = 43;
const FONT: u16 = 44;
const PAGE_LIST: u16 = 45;
const PRINTABLE: u16 = 46;
const SIGNED: u16 = 47;
const RECEIPT: u16 = 48;
const POSTER: u16 = 49;
const NONE: u16 = 65_535;
/// Built-in names.
const LIST: u16 = 1;
const ARRAY_LIST: u16 = 2;
const PLUS: u16 = 6;
const FIRST: u16 = 20;
const SIZE: u16 = 22;

fn name(name: &str) -> Vec<u8> {
    let mut record = vec![1, name.len() as u8];
    record.extend(name.as_bytes());
    record.resize(26, 0);
    record
}

fn ids(kind: u8, ids: &[u16]) -> Vec<u8> {
    [kind].into_iter().chain(ids.iter().flat_map(|id| id.to_le_bytes())).collect()
}

/// A class with its superclass and its two interfaces.
fn class(class: u16, parents: [u16; 3], in_types: bool) -> Vec<u8> {
    [ids(2, &[&[class], &parents[..], &[NONE]].concat()), vec![in_types.into()]].concat()
}

/// A function without an owner and of the name `first`, with one parameter.
fn function(param: &Type, result: &Type) -> Vec<u8> {
    let front = [ids(4, &[NONE, FIRST]), vec![0, 0, 1], result.to_bytes()].concat();
    [front, FIRST.to_le_bytes().to_vec(), vec![0], param.to_bytes()].concat()
}

/// Photo below ScannedPage below Page below Sheet, which has no record; Font; PageList below ArrayList. ScannedPage is not in
/// `types`. Of interfaces Printable has a record and Signed has none: ScannedPage has the first one, Receipt both, the second
/// one by its second place, and Poster is below Photo and has Printable too.
fn classes() -> Vec<u8> {
    [
        class(PAGE, [SHEET, NONE, NONE], true),
        class(PRINTABLE, [NONE; 3], true),
        class(SCANNED, [PAGE, PRINTABLE, NONE], false),
        class(PHOTO, [SCANNED, NONE, NONE], true),
        class(FONT, [NONE; 3], true),
        class(PAGE_LIST, [ARRAY_LIST, NONE, NONE], true),
        class(RECEIPT, [NONE, PRINTABLE, SIGNED], true),
        class(POSTER, [PHOTO, NONE, PRINTABLE], true),
    ]
    .concat()
}

fn named_table(classes: Vec<u8>, behind: &[Vec<u8>]) -> Vec<u8> {
    let names: Vec<u8> = NAMES.into_iter().flat_map(name).collect();
    [names, classes, behind.concat()].concat()
}

/// The classes above, with other records behind.
fn table(behind: &[Vec<u8>]) -> Vec<u8> {
    named_table(classes(), behind)
}

fn leaf(ty: &Type) -> Vec<u8> {
    [vec![0], ty.to_bytes()].concat()
}

/// The answer's type with names, and the diagnostics in words behind it.
fn answer(table: &[u8], tree: &[u8]) -> String {
    answer_in(NONE, table, tree)
}

/// The same of a script that stands in a class.
fn answer_in(current: u16, table: &[u8], tree: &[u8]) -> String {
    let question = [&current.to_le_bytes(), &[0xff, 0xff, 0][..], tree].concat();
    let mut buffer = [0; 320];
    let answer = judge(table, &question, &mut buffer);
    let ty = answer.ty().unwrap_or_else(|| panic!("refused with {}", answer.number()));
    let mut words = ty.with(&Names::of(table)).to_string();
    answer.diagnostics().for_each(|d| words += &format!(", {d}"));
    assert_eq!(answer.passed(), answer.diagnostics().len() == 0);
    words
}

/// A call of the functions with one argument.
fn call(functions: &[Vec<u8>], argument: &Type) -> String {
    answer(&table(functions), &[vec![5, 20, 0, 1], leaf(argument)].concat())
}

fn accepted(argument: Type, param: Type) {
    assert_eq!(call(&[function(&param, &Type::Unit)], &argument), "Unit", "{argument} to {param}");
}

fn not_accepted(argument: Type, param: Type) {
    let said = call(&[function(&param, &Type::Unit)], &argument);
    assert_eq!(said, "Unit, node 1: mismatch (1)", "{argument} to {param}");
}

fn named(id: u16) -> Type {
    Type::Named(id)
}

fn array(inner: Type) -> Type {
    Type::Array { inner: Box::new(inner), size: None }
}

fn list(inner: Type) -> Type {
    Type::List(Box::new(inner))
}

fn nullable(inner: Type) -> Type {
    Type::Nullable(Box::new(inner))
}

fn pointer(inner: Type) -> Type {
    Type::Pointer(Box::new(inner))
}

fn map(value: Type) -> Type {
    Type::Map(Box::new(Type::String), Box::new(value))
}

fn taking(param: Type) -> Type {
    Type::Function { params: vec![param], result: Box::new(Type::Unit) }
}

#[test]
fn every_class_above_is_met() {
    for class in [PHOTO, SCANNED, PAGE, SHEET] {
        accepted(named(PHOTO), named(class));
    }
    not_accepted(named(PAGE), named(SCANNED));
    not_accepted(named(SHEET), named(PAGE));
    not_accepted(named(SCANNED), named(FONT));
    not_accepted(named(SCANNED), Type::String);
}

#[test]
fn every_interface_is_met() {
    for class in [SCANNED, PHOTO, RECEIPT, POSTER] {
        accepted(named(class), named(PRINTABLE));
    }
    accepted(named(RECEIPT), named(SIGNED));
    for (class, parent) in
        [(PAGE, PRINTABLE), (PRINTABLE, SCANNED), (SCANNED, SIGNED), (RECEIPT, PAGE), (SIGNED, RECEIPT)]
    {
        not_accepted(named(class), named(parent));
    }
    accepted(list(named(RECEIPT)), array(named(PRINTABLE)));
    accepted(nullable(array(named(POSTER))), array(nullable(named(PRINTABLE))));
    not_accepted(pointer(named(RECEIPT)), pointer(named(PRINTABLE)));
}

/// Poster comes to Printable by its second interface, and by Photo and ScannedPage; it is one match with one score.
#[test]
fn a_class_that_is_met_along_two_ways_is_accepted_once() {
    let overloads = [function(&named(PRINTABLE), &Type::Int), function(&named(SIGNED), &Type::Long)];
    assert_eq!(call(&overloads, &named(POSTER)), "Int");
    assert_eq!(call(&overloads, &named(RECEIPT)), "Int, node 0: tie (2)");
    assert_eq!(call(&overloads, &named(PAGE)), "Error, node 0: no match");
    let exact = [function(&named(PRINTABLE), &Type::Int), function(&named(POSTER), &Type::Long)];
    assert_eq!(call(&exact, &named(POSTER)), "Long");
}

/// Each class has the one before it in all three places, or the three before it: 3^n ways from the last to the first.
#[test]
fn a_tower_is_climbed_once() {
    let class_in = |i: u16, from: [u16; 3]| class(i, from, true);
    let id = |i: u16, below: u16| i.checked_sub(below).unwrap_or(NONE);
    let same: Vec<u8> = (0..40).flat_map(|i| class_in(i, [id(i, 1); 3])).collect();
    let before: Vec<u8> = (0..40).flat_map(|i| class_in(i, [id(i, 1), id(i, 2), id(i, 3)])).collect();
    for classes in [same, before] {
        let table = named_table(classes, &[function(&named(0), &Type::Unit), function(&named(SHEET), &Type::Int)]);
        let asked = |class: u16| answer(&table, &[vec![5, 20, 0, 1], leaf(&named(class))].concat());
        assert_eq!((asked(39), asked(1), asked(0)), ("Unit".into(), "Unit".into(), "Unit".into()));
        assert_eq!(asked(PAGE), "Error, node 0: no match");
    }
}

/// The same interface twice, and one that is the superclass too.
#[test]
fn a_parent_may_stand_twice() {
    let classes = [
        class(PAGE, [NONE; 3], true),
        class(PHOTO, [PAGE, SIGNED, SIGNED], true),
        class(FONT, [PAGE, PAGE, PAGE], true),
    ];
    let table = named_table(classes.concat(), &[function(&named(PAGE), &Type::Unit)]);
    for class in [PHOTO, FONT] {
        assert_eq!(answer(&table, &[vec![5, 20, 0, 1], leaf(&named(class))].concat()), "Unit");
    }
}

/// A protected field of Printable is not open to a class that has it as an interface, and one of Page is to a class below it.
#[test]
fn protected_access_is_by_superclasses_alone() {
    let protected = |class: u16| [ids(6, &[class, SIZE]), vec![1]].concat();
    let field = |class: u16| [ids(5, &[class, SIZE]), vec![0]].concat();
    let table = table(&[field(PAGE), field(PRINTABLE), protected(PAGE), protected(PRINTABLE)]);
    let member = |class: u16| [vec![4, SIZE as u8, 0], leaf(&named(class))].concat();
    for current in [PAGE, SCANNED, PHOTO, POSTER] {
        assert_eq!(answer_in(current, &table, &member(PAGE)), "Int", "{current}");
    }
    assert_eq!(answer_in(PRINTABLE, &table, &member(PRINTABLE)), "Int");
    for current in [NONE, SCANNED, PHOTO, RECEIPT, POSTER] {
        assert_eq!(answer_in(current, &table, &member(PRINTABLE)), "Int, node 0: access (1)", "{current}");
    }
    assert_eq!(answer_in(RECEIPT, &table, &member(PAGE)), "Int, node 0: access (1)");
}

/// All classes have an operator set, so that the climb stops nowhere; only those of Page and Printable have plus.
#[test]
fn operator_methods_are_by_superclasses_alone() {
    let sets = [PAGE, PRINTABLE, SCANNED, PHOTO, RECEIPT]
        .map(|class| ids(3, &[class, [PAGE, PRINTABLE].contains(&class).into()]));
    let method = |class: u16| [ids(4, &[class, PLUS]), vec![0, 0, 0], named(class).to_bytes()].concat();
    let table = table(&[sets.concat(), method(PAGE), method(PRINTABLE)]);
    let sum = |class: u16| answer(&table, &[vec![1, 0], leaf(&named(class)), leaf(&Type::Int)].concat());
    for (class, said) in [(PAGE, "Page"), (PHOTO, "Page"), (PRINTABLE, "Printable"), (RECEIPT, "Error, node 0: plus")] {
        assert_eq!(sum(class), said);
    }
}

#[test]
fn at_every_depth_where_types_are_compared_by_their_parts() {
    let sized = Type::Array { inner: Box::new(named(SCANNED)), size: Some(3) };
    accepted(sized, array(named(PAGE)));
    accepted(list(named(PHOTO)), array(named(PAGE)));
    accepted(array(array(named(PHOTO))), array(array(named(SHEET))));
    accepted(named(SCANNED), nullable(named(PAGE)));
    accepted(nullable(named(SCANNED)), named(PAGE));
    accepted(nullable(array(nullable(named(SCANNED)))), nullable(array(named(PAGE))));
    not_accepted(array(named(PAGE)), array(named(SCANNED)));
    not_accepted(nullable(named(PAGE)), nullable(named(SCANNED)));
}

#[test]
fn pointers_maps_and_functions_are_compared_whole() {
    for wrap in [pointer, map, taking] {
        accepted(wrap(named(SCANNED)), wrap(named(SCANNED)));
        not_accepted(wrap(named(SCANNED)), wrap(named(PAGE)));
    }
    // As before, whatever the elements are.
    accepted(list(named(FONT)), list(named(PAGE)));
}

/// The rules of List, ArrayList and MutableList are for these names, not for a class below one of them.
#[test]
fn a_class_below_a_list_name_is_none() {
    accepted(named(PAGE_LIST), named(ARRAY_LIST));
    accepted(named(ARRAY_LIST), named(LIST));
    not_accepted(named(PAGE_LIST), named(LIST));
    accepted(named(ARRAY_LIST), array(Type::Int));
    not_accepted(named(PAGE_LIST), array(Type::Int));
    not_accepted(named(PAGE_LIST), list(Type::Int));
}

#[test]
fn a_subclass_scores_as_an_accepted_argument() {
    let overloads = [function(&named(PAGE), &Type::Int), function(&named(SCANNED), &Type::Long)];
    assert_eq!(call(&overloads, &named(SCANNED)), "Long");
    assert_eq!(call(&overloads, &named(PAGE)), "Int");
    assert_eq!(call(&overloads, &named(PHOTO)), "Int, node 0: tie (2)");
    assert_eq!(call(&overloads, &named(FONT)), "Error, node 0: no match");
}

#[test]
fn a_class_and_one_above_it_compare_as_related() {
    const EQ: u8 = 5;
    const LT: u8 = 7;
    let compare = |op: u8, left: u16, right: u16| {
        answer(&table(&[]), &[vec![1, op], leaf(&named(left)), leaf(&named(right))].concat())
    };
    assert_eq!(compare(EQ, PHOTO, PAGE), "Boolean");
    assert_eq!(compare(EQ, PAGE, PHOTO), "Boolean");
    assert_eq!(compare(EQ, FONT, PAGE), "Boolean, node 0: unrelated comparison (warning)");
    assert_eq!(compare(EQ, PRINTABLE, PHOTO), "Boolean");
    assert_eq!(compare(EQ, RECEIPT, SIGNED), "Boolean");
    assert_eq!(compare(EQ, RECEIPT, SCANNED), "Boolean, node 0: unrelated comparison (warning)");
    // `<` does not ask whether one assigns to the other.
    assert_eq!(compare(LT, PHOTO, PAGE), "Boolean, node 0: not comparable");
}
