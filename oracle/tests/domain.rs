//! Document 02, order 4: the domain as the second reading decides it, beside `oracle::domain`, which asks the Rust.

use oracle::answer::{Outside, Run};
use oracle::table::{has_interface, has_superclass};
use reading::gen::{self, Profile};
use reading::words::calls::{fits, score, usable, Argument};
use reading::words::question::{read, Shape, Tree};
use reading::words::symbols::Symbols;
use reading::words::types::{named_id, non_null};
use reading::words::{judge, refusal};
use std::collections::{BTreeMap, HashMap};

fn enter<'a>(tree: &'a Tree<'a>, nodes: &mut HashMap<usize, &'a Tree<'a>>) {
    nodes.insert(tree.number, tree);
    match &tree.shape {
        Shape::Leaf(_) => {}
        Shape::Named(_, part) | Shape::Unary(_, part) | Shape::Member(_, part) => enter(part, nodes),
        Shape::Binary(_, left, right) => [left, right].into_iter().for_each(|part| enter(part, nodes)),
        Shape::Call(_, arguments) => arguments.iter().for_each(|part| enter(part, nodes)),
        Shape::Method(_, object, arguments) => {
            enter(object, nodes);
            arguments.iter().for_each(|part| enter(part, nodes));
        }
    }
}

/// Why the call at a visited node is outside, if it is one that reads a list and is.
fn call(symbols: &Symbols, tree: &Tree, types: &HashMap<usize, Vec<u8>>) -> Option<Outside> {
    let (owner, name, arguments) = match &tree.shape {
        Shape::Call(name, arguments) => (None, *name, arguments),
        Shape::Method(name, object, arguments) => (Some(named_id(non_null(&types[&object.number]))?), *name, arguments),
        _ => return None,
    };
    let list = symbols.functions(owner, name);
    if list.is_empty() {
        return None;
    }
    let given: Vec<Vec<u8>> = arguments.iter().map(|a| types[&a.number].clone()).collect();
    let given = Argument::row(arguments, &given);
    let unnamed = given.iter().filter(|a| a.name.is_none()).count();
    let fitting = || usable(list).into_iter().filter(|f| fits(f, given.len()));
    if list.iter().any(|f| f.params.iter().rev().skip(1).any(|p| p.vararg)) {
        Some(Outside::VarargNotLast)
    } else if unnamed > 1 {
        Some(Outside::UnnamedArguments)
    } else if unnamed < given.len() && fitting().all(|f| score(symbols, f, &given).is_none()) {
        Some(Outside::NamedNoMatch)
    } else {
        None
    }
}

/// Why an accepted case without superclasses and interfaces is outside by a call.
fn by_the_words(table: &[u8], question: &[u8]) -> Option<Outside> {
    let (judged, _) = judge(table, question).expect("an accepted case");
    let (symbols, question) = (Symbols::of(table), read(question));
    let mut nodes = HashMap::new();
    enter(&question.tree, &mut nodes);
    let types: HashMap<usize, Vec<u8>> = judged.finished.iter().cloned().collect();
    judged.finished.iter().find_map(|(node, _)| call(&symbols, nodes[node], &types))
}

#[test]
fn the_second_reading_decides_the_domain_as_the_rust_does() {
    let mut seen: BTreeMap<Option<Outside>, u64> = BTreeMap::new();
    for profile in [Profile::Calls, Profile::Wide, Profile::Typed, Profile::Arguments] {
        for index in 0..6_000 {
            let case = gen::case(profile, 7, index);
            let (table, question) = (reading::bytes::without_parents(&case.table), &case.question);
            if refusal(&table, question) != 0 {
                continue;
            }
            assert!(!has_superclass(&table) && !has_interface(&table));
            let rust = Run::inside(&table, question).err();
            if rust == Some(Outside::Spelling) {
                continue;
            }
            assert_eq!(by_the_words(&table, question), rust, "{} {}", profile.name(), index);
            *seen.entry(rust).or_insert(0) += 1;
        }
    }
    println!("{:?}", seen);
    let calls = [Outside::VarargNotLast, Outside::UnnamedArguments, Outside::NamedNoMatch].map(Some);
    assert!(calls.iter().chain([&None]).all(|why| seen.get(why).is_some_and(|count| *count >= 500)), "{:?}", seen);
}
