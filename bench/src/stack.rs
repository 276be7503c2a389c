//! The judge's stack: the smallest thread on which the deepest questions run, found in child processes.

use crate::inputs::{library_form, table, Make};
use aura_judge::raw;
use reading::bytes::*;
use reading::name::NONE;
use std::process::{Command, Stdio};

/// Stacks are tried in steps of this many KiB.
pub const STEP: usize = 4;
/// The word by which the program knows that it is such a child.
pub const CHILD: &str = "--on-a-stack-of";

/// The most nodes of a question.
const NODES: usize = 64;
/// A class, a class above it, and another below that.
const CLASS_ID: u16 = 6;
const ABOVE_ID: u16 = 7;
const BESIDE_ID: u16 = 8;
/// The names of functions with one parameter that takes the class above, with 16 such, and with one that takes the other.
const FUNCTION: u16 = 20;
const MANY: u16 = 21;
const STRANGE: u16 = 22;
/// The name of a function's first parameter.
const PARAM: u16 = 0;

/// Nodes with one child: unary, member, call of either function, method call, named argument.
const NESTS: [&[u8]; 6] = [&[2, NOT], &[4, 20, 0], &[5, 20, 0, 1], &[5, 22, 0, 1], &[6, 20, 0, 0], &[3, 20, 0]];

type Asked = (Vec<u8>, Vec<u8>);

/// Questions of 64 nodes that go as deep as they can, each with a full table.
fn deepest() -> Vec<Asked> {
    let repeat = |node: &[u8]| question(&[node.repeat(NODES - 1), vec![0, INT]].concat());
    let mut all = vec![
        (table(Make::Names, 60_000), repeat(&[2, MINUS])),
        (table(Make::Fields, 60_000), repeat(&[4, 40, 0])),
        (table(Make::Many, 60_000), repeat(&[5, 40, 0, 1])),
        (table(Make::Few, 60_000), repeat(&[5, 40, 0, 1])),
        (table(Make::Few, 60_000), repeat(&[6, 40, 0, 0])),
        (table(Make::BucketFields, 60_000), repeat(&[3, 40, 0])),
    ];
    all.extend(deepest_types(|class| nullables(189, &named(class))));
    all.extend(deepest_types(|class| (0..27).fold(named(class), |ty, _| nullable(&array(None, &ty)))));
    if cfg!(feature = "large-array") {
        let large = |ty: Bytes, _| nullable(&array(Some(1 << 32), &ty));
        all.extend(deepest_types(|class| (0..17).fold(named(class), large)));
    }
    all
}

/// Questions in which assignability goes through all of two types of 192 bytes each to a class and one above it, in the
/// innermost of nodes in each other.
fn deepest_types(wide: impl Fn(u16) -> Bytes) -> Vec<Asked> {
    let [class, above, beside] = [CLASS_ID, ABOVE_ID, BESIDE_ID].map(|id| leaf(&wide(id)));
    let innermost = [
        (2, call(FUNCTION, &[class.clone()])),
        (2, call(STRANGE, &[class.clone()])),
        (3, binary(EQ, &class, &above)),
        (3, binary(EQ, &class, &beside)),
        (3, method(FUNCTION, &leaf(&named(CLASS_ID)), &[class.clone()])),
    ];
    let inside = |node: &[u8], (nodes, tree): &(usize, Bytes)| [node.repeat(NODES - nodes), tree.clone()].concat();
    let nests = NESTS.iter().flat_map(|node| innermost.iter().map(move |inner| inside(node, inner)));
    let trees = nests.chain([calls_of_many(&class)]);
    let tables = classes_by_wide_types(wide);
    trees.flat_map(|tree| tables.iter().map(move |table| (table.clone(), question(&tree)))).collect()
}

/// Four calls in each other, each the last argument of the one around it: 64 nodes.
fn calls_of_many(other: &[u8]) -> Bytes {
    (0..4).fold(vec![], |inner, _| {
        let mut values = vec![other.to_vec(); 15];
        values.extend((!inner.is_empty()).then_some(inner));
        call(MANY, &values)
    })
}

/// Tables of the three classes and the functions: the class above is a superclass or an interface, and a list has one function
/// or two.
fn classes_by_wide_types(wide: impl Fn(u16) -> Bytes) -> Vec<Vec<u8>> {
    let parents: &[[u16; 3]] = match cfg!(feature = "interface") {
        true => &[[ABOVE_ID, NONE, NONE], [0, 1, ABOVE_ID]],
        false => &[[ABOVE_ID, NONE, NONE]],
    };
    let made = |(parents, functions): (&[u16; 3], usize)| {
        let mut t = Table::new();
        t.class(ABOVE_ID, NONE, NONE, true);
        t.class_below(CLASS_ID, *parents, NONE, true);
        t.class_below(BESIDE_ID, *parents, NONE, true);
        wide_functions(&mut t, functions, &wide);
        library_form(&t.bytes())
    };
    parents.iter().flat_map(|parents| [1, 2].map(|functions| (parents, functions))).map(made).collect()
}

/// So many functions of each list, which give the class. The 16th parameter may be left out.
fn wide_functions(t: &mut Table, functions: usize, wide: impl Fn(u16) -> Bytes) {
    let lists = [(NONE, FUNCTION, ABOVE_ID, 1), (NONE, MANY, ABOVE_ID, 16), (NONE, STRANGE, BESIDE_ID, 1)];
    for (owner, name, takes, count) in lists.into_iter().chain([(CLASS_ID, FUNCTION, ABOVE_ID, 1)]) {
        let flag = |i: u16| if i == 15 { DEFAULT } else { 0 };
        let params: Vec<Param> = (0..count).map(|i| (PARAM + i, flag(i), wide(takes))).collect();
        (0..functions).for_each(|_| t.function(owner, name, 0, false, &wide(CLASS_ID), &params));
    }
}

/// What a child does: all of them on a thread with this stack.
pub fn child(kib: usize) {
    let inputs = deepest();
    let run = move || {
        let mut diagnostics = vec![0; 320];
        let mut answer = vec![0; raw::ANSWER_SIZE];
        inputs.iter().map(|(t, q)| raw::judge(t, q, &mut diagnostics, &mut answer)).max()
    };
    let thread = std::thread::Builder::new().stack_size(kib * 1024).spawn(run).expect("a thread");
    let worst = thread.join().expect("the thread ends");
    assert_eq!(worst, Some(0), "a deepest question is refused");
}

fn runs_on(kib: usize) -> bool {
    let program = std::env::current_exe().expect("the program's own path");
    let mut command = Command::new(program);
    command.args([CHILD, &kib.to_string()]).stdout(Stdio::null()).stderr(Stdio::null());
    command.status().is_ok_and(|status| status.success())
}

/// The smallest stack in KiB on which they run.
pub fn smallest() -> Option<usize> {
    let (mut fails, mut runs) = (0, 4096 / STEP);
    if !runs_on(runs * STEP) {
        return None;
    }
    while runs - fails > 1 {
        let middle = (fails + runs) / 2;
        if runs_on(middle * STEP) {
            runs = middle;
        } else {
            fails = middle;
        }
    }
    Some(runs * STEP)
}

#[cfg(all(test, feature = "interface"))]
mod tests {
    use super::*;
    use reading::words;
    use reading::Said;

    /// The kinds of the diagnostics of each question that ends with this tree, in whichever nodes it stands.
    fn reported(asked: &[Asked], nest: &[u8], inner: &[u8]) -> Vec<Vec<u8>> {
        let chosen = asked.iter().filter(|(_, question)| question[5..].starts_with(nest) && question.ends_with(inner));
        let kinds = |(table, question): &Asked| match words::said(table, question) {
            Said::Judged { diagnostics, .. } => diagnostics.iter().map(|d| d.kind).collect(),
            Said::Refused(number) => panic!("refused with {number}"),
        };
        chosen.map(kinds).collect()
    }

    #[test]
    fn classes_are_asked_for_in_the_innermost_node() {
        let wide = |class: u16| nullables(189, &named(class));
        let [class, above, beside] = [CLASS_ID, ABOVE_ID, BESIDE_ID].map(|id| leaf(&wide(id)));
        let asked = deepest_types(wide);
        assert_eq!(asked.len(), (6 * 5 + 1) * 4);
        assert!(asked.iter().all(|(_, question)| words::question::number_under(question, 40) == 0));
        // One function and two, where the class above is the superclass and where it is an interface.
        let nested = |node, inner: &[u8]| reported(&asked, node, inner);
        let each_way = |one: Vec<u8>, two: Vec<u8>| [one.clone(), two.clone(), one, two];
        let taken = call(FUNCTION, &[class.clone()]);
        assert_eq!(nested(NESTS[2], &taken), each_way(vec![], vec![19; 63]));
        let strange = call(STRANGE, &[class.clone()]);
        assert_eq!(nested(NESTS[3], &strange)[0], vec![17; 63]);
        assert_eq!(nested(NESTS[4], &binary(EQ, &class, &above)), each_way(vec![], vec![]));
        assert_eq!(nested(NESTS[4], &binary(EQ, &class, &beside)), each_way(vec![4], vec![4]));
        let owned = method(FUNCTION, &leaf(&named(CLASS_ID)), &[class.clone()]);
        assert_eq!(nested(NESTS[2], &owned), each_way(vec![], vec![19; 62]));
        assert_eq!(nested(&[5, MANY as u8, 0, 16], &class), each_way(vec![], vec![19; 4]));
    }
}
