//! Tables of a library with one list, and questions that call it.

#![allow(dead_code)]

#[path = "../../../renew/tests/common/process.rs"]
pub mod process;

use reading::bytes::*;
use reading::name::NONE;

pub const WORDS: u16 = 40;
pub const GAP: u16 = 41;
pub const DEPTH: u16 = 42;
pub const PAGE: u16 = 43;

/// A function of the list: whether it is builtin, its result, its parameters.
pub type Function = (bool, u8, Vec<Param>);

/// A function that is not builtin, with a parameter of a type without body and children.
pub fn own(result: u8, name: u16, ty: u8) -> Function {
    (false, result, vec![(name, 0, vec![ty])])
}

pub fn builtin(result: u8, name: u16, ty: u8) -> Function {
    (true, result, vec![(name, 0, vec![ty])])
}

/// Names, a class, and functions `words` of one owner or without one.
pub fn library(owner: u16, list: &[Function]) -> Table {
    let mut table = Table::with_names(&["words", "gap", "depth", "Page"]);
    table.class(PAGE, NONE, NONE, true);
    for (is_builtin, result, params) in list {
        table.function(owner, WORDS, 0, *is_builtin, &[*result], params);
    }
    table
}

/// A table with `words(gap: Int) -> Int`, and one with such a function more.
pub fn tables(more: Function) -> [Bytes; 2] {
    let first = own(INT, GAP, INT);
    [library(NONE, &[first.clone()]).bytes(), library(NONE, &[first, more]).bytes()]
}

/// Two tables: a call of `words` with an Int keeps its answer, and one with a Boolean does not.
pub fn two_tables() -> [Bytes; 2] {
    tables(own(BOOLEAN, GAP, BOOLEAN))
}

/// `words` with arguments of these types.
pub fn words(types: &[u8]) -> Bytes {
    question(&call(WORDS, &types.iter().map(|ty| leaf(&[*ty])).collect::<Vec<_>>()))
}
