//! What the sweep `own-parameters` and the profile `arguments` are made of (document 02, order 4).

use reading::bytes::Bytes;
use reading::gen::{case, mixed, Profile};
use reading::words::question::{read, Shape, Tree};
use reading::words::symbols::{Function, Symbols};
use std::collections::HashSet;

/// The counts that `own_parameters.rs` makes of its parts: 52 lists alone under 157 rows, 12 under 1,728, 22 times 85 under
/// 73, 5 times 20 under 512.
#[test]
fn the_sweep_has_as_many_cases_as_its_parts_say_and_each_once() {
    let count = Profile::OwnParameters.count().expect("a sweep");
    assert_eq!(count, 52 * 157 + 12 * 1_728 + 22 * 85 * 73 + 5 * 20 * 512);
    let mut seen: HashSet<(Bytes, Bytes)> = HashSet::new();
    for index in 0..count {
        let case = case(Profile::OwnParameters, 1, index as u64);
        assert!(seen.insert((case.table, case.question)), "index {}", index);
    }
}

/// The arguments of a call at the root.
fn arguments<'a>(tree: &'a Tree<'a>) -> &'a [Tree<'a>] {
    match &tree.shape {
        Shape::Call(_, arguments) | Shape::Method(_, _, arguments) => arguments,
        _ => panic!("no call"),
    }
}

fn is_named(tree: &Tree) -> bool {
    matches!(tree.shape, Shape::Named(..))
}

/// Lists of several overloads, 0 to 16 parameters and arguments, defaults and varargs, in calls and method calls.
#[test]
fn the_profile_has_every_size() {
    let (mut given, mut taken, mut overloads) = ([0; 17], [0; 17], [0; 7]);
    let (mut early, mut defaults, mut mixed_names, mut methods) = (0, 0, 0, 0);
    for index in 0..20_000 {
        let case = case(Profile::Arguments, 1, index);
        let (symbols, question) = (Symbols::of(&case.table), read(&case.question));
        let row = arguments(&question.tree);
        given[row.len()] += 1;
        mixed_names += (row.iter().any(is_named) && !row.iter().all(is_named)) as usize;
        let is_method = matches!(question.tree.shape, Shape::Method(..));
        methods += is_method as usize;
        let list: &[Function] = symbols.functions(is_method.then_some(42), 40);
        overloads[list.len()] += 1;
        for function in list {
            taken[function.params.len()] += 1;
            early += function.params.iter().rev().skip(1).any(|p| p.vararg) as usize;
            defaults += function.params.iter().any(|p| p.default) as usize;
        }
    }
    println!("arguments {:?}, parameters {:?}, overloads {:?}", given, taken, overloads);
    assert!(given.iter().chain(&taken).all(|count| *count >= 50) && overloads[0] == 0);
    assert!([1, 2, 3, 4, 6].iter().all(|n| overloads[*n] >= 1_000));
    assert!([early, defaults, mixed_names, methods].iter().all(|count| *count >= 1_000));
}

/// In every other case at most one argument of the call is unnamed, and no vararg stands before the last.
#[test]
fn every_other_case_has_few_unnamed_arguments() {
    for index in (0..20_000).step_by(2) {
        let case = case(Profile::Arguments, 1, index);
        let question = read(&case.question);
        let unnamed = arguments(&question.tree).iter().filter(|a| !is_named(a)).count();
        assert!(unnamed <= 1, "index {}", index);
        let symbols = Symbols::of(&case.table);
        for function in [None, Some(42)].iter().flat_map(|owner| symbols.functions(*owner, 40)) {
            assert!(function.params.iter().rev().skip(1).all(|p| !p.vararg), "index {}", index);
        }
    }
}

/// The profile has the last place but one of each turn of the mixed cases.
#[test]
fn the_mixed_cases_have_the_profile() {
    for round in 0..20 {
        assert_eq!(mixed(3, 15 * round + 13), case(Profile::Arguments, 3, round));
    }
}
