//! Document 02, order 7: "Consider two accepted tables, the second having one function more, behind all others, in a
//! list that was not empty. Let the old list hold a non-builtin, or the new function be a builtin. Suppose that at each
//! call reading this list the new one is dropped as builtin, or doesn't fit in number, or else it knows all named
//! arguments, an old usable overload matches, and the new one doesn't match or scores less than the best. Then with
//! equal buffers the whole answer and every diagnostic are equal in both."
//!
//! "behind all others" is asked of the new function's own list: how it stands to other lists is the same to every
//! lookup. An overload matches where it fits in number and has a score. The promise is of questions without a node of
//! kind 7 (order 8): there is none yet.

use super::calls::{fits, knows, score, usable, Argument};
use super::question::{self, Shape, Tree};
use super::symbols::{Function, Symbols};
use super::table::{check, or_none, split};
use super::types::{named_id, non_null, two_bytes};
use std::collections::HashMap;

/// The function that a second table has more.
#[derive(Debug, Clone, Copy, PartialEq, Eq)]
pub struct Added {
    pub owner: Option<u16>,
    pub name: u16,
    /// How many records stand before it in the second table.
    pub record: usize,
}

/// Why two tables are not as the order has them: of these the first that holds.
#[derive(Debug, Clone, Copy, PartialEq, Eq)]
pub enum NotAdded {
    /// The first table is refused, with this number.
    OldRefused(u8),
    /// The second table is refused, with this number.
    NewRefused(u8),
    /// The second table's records are not the first's and one more.
    NotOneMore,
    /// The record that is more is no function.
    NotFunction,
    /// A function of the same list stands behind it.
    NotLast,
    /// The first table has no function of its owner and name.
    EmptyList,
    /// The old list has builtins alone, and the new function is none.
    NotMixed,
}

const FUNCTION: u8 = 4;

/// What the second table has more, if the two are as the order has them.
pub fn added(old: &[u8], new: &[u8]) -> Result<Added, NotAdded> {
    Tables::of(old, new).map(|tables| tables.added)
}

/// The place of the record that a second table has more than the first, if that is all: of several alike the last.
pub fn one_more(old: &[u8], new: &[u8]) -> Option<usize> {
    let (old, new) = (split(old), split(new));
    let at = old.iter().zip(&new).take_while(|(old, new)| old == new).count();
    (new.get(at + 1..) == Some(&old[at..])).then_some(at)
}

/// Whether a list that is not empty has no non-builtin.
fn builtins_alone(list: &[Function]) -> bool {
    usable(list)[0].builtin
}

impl Added {
    fn list<'s>(&self, symbols: &'s Symbols) -> &'s [Function<'s>] {
        symbols.functions(self.owner, self.name)
    }

    /// The function itself, under the second table.
    fn function<'s>(&self, symbols: &'s Symbols) -> &'s Function<'s> {
        self.list(symbols).last().expect("the second table has it")
    }

    /// The arguments of a visited node if it is a call that reads the list: "5 is `check_call_args` on the ownerless
    /// list"; of a method call "a base (the object's type, one Nullable taken off)" that is Named and the owner.
    /// Members and operators read a list's first function alone, and are no calls.
    fn arguments<'t, 'q>(&self, node: &'t Tree<'q>, types: &HashMap<usize, Vec<u8>>) -> Option<&'t [Tree<'q>]> {
        let (owner, name, arguments) = match &node.shape {
            Shape::Call(name, arguments) => (None, *name, arguments),
            Shape::Method(name, object, arguments) => {
                (Some(named_id(non_null(&types[&object.number]))?), *name, arguments)
            }
            _ => return None,
        };
        ((owner, name) == (self.owner, self.name)).then_some(arguments)
    }
}

/// How a call that reads the list stands to the new function: what decides first.
#[derive(Debug, Clone, Copy, PartialEq, Eq)]
pub enum Stand {
    /// "dropped as builtin".
    Dropped,
    /// It "doesn't fit in number".
    Unfit,
    /// "it knows all named arguments, an old usable overload matches, and the new one doesn't match or scores less than
    /// the best."
    StaysWithOld,
    /// It does not know the name of the argument at this position, from 1: the first of those.
    Unknown(usize),
    /// No old usable overload matches.
    NoMatch,
    /// It scores no less than the best of the old ones.
    NotLess { new: usize, best: usize },
}

impl Stand {
    /// Whether the condition holds at the call.
    pub fn holds(&self) -> bool {
        matches!(self, Stand::Dropped | Stand::Unfit | Stand::StaysWithOld)
    }

    fn of(symbols: &Symbols, list: &[Function], new: &Function, arguments: &[Argument]) -> Stand {
        if new.builtin && !builtins_alone(list) {
            return Stand::Dropped;
        }
        if !fits(new, arguments.len()) {
            return Stand::Unfit;
        }
        if let Some(i) = arguments.iter().position(|a| a.name.is_some_and(|name| !knows(new, name))) {
            return Stand::Unknown(i + 1);
        }
        let fitting = usable(list).into_iter().filter(|f| fits(f, arguments.len()));
        let Some(best) = fitting.filter_map(|f| score(symbols, f, arguments)).max() else { return Stand::NoMatch };
        match score(symbols, new, arguments) {
            Some(new) if new >= best => Stand::NotLess { new, best },
            _ => Stand::StaysWithOld,
        }
    }
}

/// A visited call that reads the list.
#[derive(Debug, Clone, Copy, PartialEq, Eq)]
pub struct ReadingCall {
    pub node: usize,
    pub stand: Stand,
}

/// Two tables as the order has them, read once for any number of questions.
#[derive(Debug)]
pub struct Tables<'a> {
    pub added: Added,
    pub old: Symbols<'a>,
    pub new: Symbols<'a>,
    /// How many names each of them has.
    names: usize,
}

impl<'a> Tables<'a> {
    pub fn of(old: &'a [u8], new: &'a [u8]) -> Result<Tables<'a>, NotAdded> {
        let names = check(old).map_err(NotAdded::OldRefused)?;
        check(new).map_err(NotAdded::NewRefused)?;
        let record = one_more(old, new).ok_or(NotAdded::NotOneMore)?;
        let behind = &split(new)[record..];
        let key = |r: &[u8]| (r[0] == FUNCTION).then(|| (or_none(two_bytes(r, 1)), two_bytes(r, 3)));
        let (owner, name) = key(behind[0]).ok_or(NotAdded::NotFunction)?;
        if behind[1..].iter().any(|r| key(r) == Some((owner, name))) {
            return Err(NotAdded::NotLast);
        }
        let added = Added { owner, name, record };
        let tables = Tables { added, old: Symbols::of(old), new: Symbols::of(new), names };
        let list = added.list(&tables.old);
        if list.is_empty() {
            return Err(NotAdded::EmptyList);
        }
        if !added.function(&tables.new).builtin && builtins_alone(list) {
            return Err(NotAdded::NotMixed);
        }
        Ok(tables)
    }

    /// The visited calls that read the list, in the order in which they are finished (children first), with the types
    /// of the judgement under the first table; or the number of a refused question.
    pub fn reading_calls(&self, question: &[u8]) -> Result<Vec<ReadingCall>, u8> {
        match question::number_under(question, self.names) {
            0 => {}
            number => return Err(number),
        }
        let question = question::read(question);
        let finished = super::judgement::of(&self.old, &question).finished;
        let (added, nodes, types) = (&self.added, nodes(&question.tree), finished.iter().cloned().collect());
        let (list, new) = (added.list(&self.old), added.function(&self.new));
        let one = |node: usize| {
            let arguments = added.arguments(nodes[node], &types)?;
            let given: Vec<Vec<u8>> = arguments.iter().map(|a| types[&a.number].clone()).collect();
            let stand = Stand::of(&self.old, list, new, &Argument::row(arguments, &given));
            Some(ReadingCall { node, stand })
        };
        Ok(finished.iter().filter_map(|(node, _)| one(*node)).collect())
    }
}

/// The same of two tables. `added` is taken as it is, even where [`added`] has another or none: only the first table is
/// checked (its number, if it is refused), and the second has to have a function of that owner and name.
pub fn reading_calls(old: &[u8], new: &[u8], added: &Added, question: &[u8]) -> Result<Vec<ReadingCall>, u8> {
    let names = check(old)?;
    Tables { added: *added, old: Symbols::of(old), new: Symbols::of(new), names }.reading_calls(question)
}

/// The nodes of a tree by number.
pub fn nodes<'t, 'q>(tree: &'t Tree<'q>) -> Vec<&'t Tree<'q>> {
    let below: Vec<&Tree> = match &tree.shape {
        Shape::Leaf(_) => vec![],
        Shape::Named(_, child) | Shape::Unary(_, child) | Shape::Member(_, child) => vec![child],
        Shape::Binary(_, left, right) => vec![left, right],
        Shape::Call(_, arguments) => arguments.iter().collect(),
        Shape::Method(_, object, arguments) => [&**object].into_iter().chain(arguments).collect(),
    };
    [tree].into_iter().chain(below.into_iter().flat_map(nodes)).collect()
}

/// Whether the condition holds at each call that reads the list; a refused question reads nothing.
pub fn is_undisturbed(old: &[u8], new: &[u8], added: &Added, question: &[u8]) -> bool {
    reading_calls(old, new, added, question).map_or(true, |calls| calls.iter().all(|call| call.stand.holds()))
}
