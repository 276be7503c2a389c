//! Each argument against its own parameter (document 02, order 4): which overload a call chooses, and what is reported of a
//! single one.

use aura_judge::{judge, Names, Type};

const NONE: u16 = 65_535;
/// Built-in names: the function, and its parameters in order.
const FUNCTION: u16 = 6;
const P: u16 = 20;
const Q: u16 = 21;
const R: u16 = 22;
/// A name that no parameter has.
const OTHER: u16 = 23;
/// Flags of a parameter.
const DEFAULT: u8 = 1;
const VARARG: u8 = 2;

/// A function without an owner: its parameters p, q, r, as many as there are types, and its result.
fn function(params: &[(Type, u8)], result: Type) -> Vec<u8> {
    let mut record = vec![4];
    record.extend([NONE, FUNCTION].into_iter().flat_map(u16::to_le_bytes));
    record.extend([0, 0, params.len() as u8]);
    record.extend(result.to_bytes());
    for (name, (ty, flag)) in [P, Q, R].into_iter().zip(params) {
        record.extend(name.to_le_bytes());
        record.push(*flag);
        record.extend(ty.to_bytes());
    }
    record
}

/// A function with parameters of these types, without flags.
fn plain(params: &[Type], result: Type) -> Vec<u8> {
    function(&params.iter().map(|ty| (ty.clone(), 0)).collect::<Vec<_>>(), result)
}

/// An argument, a leaf: under a name, or without one.
fn argument(name: Option<u16>, ty: &Type) -> Vec<u8> {
    let named = name.map_or(vec![], |id| [&[3][..], &id.to_le_bytes()].concat());
    [named, vec![0], ty.to_bytes()].concat()
}

/// The type of a call with these arguments, and the diagnostics in words behind it.
fn call(functions: &[Vec<u8>], arguments: &[(Option<u16>, Type)]) -> String {
    let table = functions.concat();
    let mut question = vec![0xff, 0xff, 0xff, 0xff, 0, 5];
    question.extend(FUNCTION.to_le_bytes());
    question.push(arguments.len() as u8);
    question.extend(arguments.iter().flat_map(|(name, ty)| argument(*name, ty)));
    let mut buffer = [0; 320];
    let answer = judge(&table, &question, &mut buffer);
    let ty = answer.ty().unwrap_or_else(|| panic!("refused with {}", answer.number()));
    let mut words = ty.with(&Names::of(&table)).to_string();
    answer.diagnostics().for_each(|d| words += &format!(", {d}"));
    assert_eq!(answer.passed(), answer.diagnostics().len() == 0);
    words
}

/// An argument without a name.
fn by_turn(ty: Type) -> (Option<u16>, Type) {
    (None, ty)
}

fn named(name: u16, ty: Type) -> (Option<u16>, Type) {
    (Some(name), ty)
}

#[test]
fn the_second_argument_chooses_between_two_overloads() {
    let overloads = [plain(&[Type::Int, Type::String], Type::Unit), plain(&[Type::Int, Type::Int], Type::Boolean)];
    let called = |second: Type| call(&overloads, &[by_turn(Type::Int), by_turn(second)]);
    assert_eq!(called(Type::String), "Unit");
    assert_eq!(called(Type::Int), "Boolean");
    assert_eq!(called(Type::Boolean), "Error, node 0: no match");
    // Accepted, not exact.
    assert_eq!(called(Type::Long), "Boolean");
}

#[test]
fn a_named_argument_leaves_the_others_to_those_without_a_name() {
    let single = [plain(&[Type::Int, Type::String, Type::Boolean], Type::Unit)];
    let (int, string, boolean) = (by_turn(Type::Int), by_turn(Type::String), by_turn(Type::Boolean));
    assert_eq!(call(&single, &[int.clone(), string.clone(), boolean.clone()]), "Unit");
    // Wherever it stands.
    assert_eq!(call(&single, &[named(P, Type::Int), string.clone(), boolean.clone()]), "Unit");
    assert_eq!(call(&single, &[string.clone(), boolean.clone(), named(P, Type::Int)]), "Unit");
    assert_eq!(call(&single, &[int.clone(), boolean.clone(), named(Q, Type::String)]), "Unit");
    // Without a name the arguments keep their order.
    let swapped = call(&single, &[boolean, int, named(Q, Type::String)]);
    assert_eq!(swapped, "Unit, node 1: mismatch (1), node 2: mismatch (2)");
}

#[test]
fn a_single_overload_is_checked_by_own_parameters() {
    let single = [plain(&[Type::Int, Type::String], Type::Unit)];
    let called = |arguments: &[(Option<u16>, Type)]| call(&single, arguments);
    // The named argument and the one without a name have changed places.
    assert_eq!(
        called(&[named(Q, Type::Int), by_turn(Type::String)]),
        "Unit, node 1: mismatch (1), node 3: mismatch (2)"
    );
    assert_eq!(called(&[named(Q, Type::String), by_turn(Type::Int)]), "Unit");
    assert_eq!(called(&[by_turn(Type::Int), by_turn(Type::Int)]), "Unit, node 2: mismatch (2)");
    // A name given twice is compared twice.
    assert_eq!(called(&[named(P, Type::Int), named(P, Type::Int)]), "Unit");
    assert_eq!(called(&[named(P, Type::Int), named(P, Type::String)]), "Unit, node 3: mismatch (2)");
}

#[test]
fn an_unknown_name_takes_no_parameter() {
    let single = [plain(&[Type::Int, Type::String], Type::Unit)];
    let called = |second: Type| call(&single, &[named(OTHER, Type::Boolean), by_turn(second)]);
    assert_eq!(called(Type::Int), "Unit, node 1: unknown name (1)");
    assert_eq!(called(Type::String), "Unit, node 1: unknown name (1), node 3: mismatch (2)");
}

#[test]
fn a_default_is_not_skipped() {
    let single = [function(&[(Type::Int, DEFAULT), (Type::String, 0)], Type::Unit)];
    assert_eq!(call(&single, &[by_turn(Type::String)]), "Unit, node 1: mismatch (1)");
    assert_eq!(call(&single, &[named(Q, Type::String)]), "Unit");
}

#[test]
fn only_a_vararg_at_the_end_leaves_arguments_over() {
    let last = [function(&[(Type::Int, 0), (Type::String, VARARG)], Type::Unit)];
    let three = [by_turn(Type::Int), by_turn(Type::String), by_turn(Type::Boolean)];
    assert_eq!(call(&last, &three), "Unit");
    assert_eq!(call(&last, &[by_turn(Type::String), by_turn(Type::String)]), "Unit, node 1: mismatch (1)");
    // One left over scores 1, as one that a parameter takes does: less than an exact match.
    let longer = |third: Type| function(&[(Type::Int, 0), (Type::String, VARARG), (third, VARARG)], Type::Long);
    assert_eq!(call(&[last[0].clone(), longer(Type::Boolean)], &three), "Long");
    assert_eq!(call(&[last[0].clone(), longer(Type::Char)], &three), "Unit, node 0: tie (2)");
    // A vararg before the end takes one argument.
    let first = [function(&[(Type::String, VARARG), (Type::Int, 0)], Type::Unit)];
    assert_eq!(call(&first, &[by_turn(Type::Boolean), by_turn(Type::Int)]), "Unit");
    assert_eq!(call(&first, &[by_turn(Type::Boolean), by_turn(Type::Boolean)]), "Unit, node 2: mismatch (2)");
    assert_eq!(call(&first, &three), "Error, node 0: argument count (3)");
}
