//! "Both sides replace `check_expr_impl` with one stand-in: leaf gives its type, a named argument its
//! value's, children go left to right. 1, 2, 4 are `check_binary`, `check_unary`, `check_member`; 5 is
//! `check_call_args` on the ownerless list." In a judgement, visited are the nodes that get a type here.

use super::access::is_allowed;
use super::binary::check_binary;
use super::calls::{self, Argument};
use super::member::check_member;
use super::question::{Question, Shape, Tree};
use super::rulings::{self, Rulings};
use super::symbols::Symbols;
use super::types::{named_id, non_null, ANY, ERROR};
use super::unary::check_unary;
use crate::answer::Diagnostic;

/// What a rule gives: a type, and its reports at the node, each a kind and a number.
#[derive(Debug, Clone, PartialEq, Eq)]
pub struct Ruled {
    pub ty: Vec<u8>,
    pub reports: Vec<(u8, u16)>,
}

impl Ruled {
    pub fn clean(ty: impl AsRef<[u8]>) -> Ruled {
        Ruled { ty: ty.as_ref().to_vec(), reports: Vec::new() }
    }

    /// "The number is 0 where none is given."
    pub fn reported(ty: impl AsRef<[u8]>, kind: u8) -> Ruled {
        Ruled { ty: ty.as_ref().to_vec(), reports: vec![(kind, 0)] }
    }

    pub fn unless(fine: bool, ty: impl AsRef<[u8]>, kind: u8) -> Ruled {
        if fine {
            Ruled::clean(ty)
        } else {
            Ruled::reported(ty, kind)
        }
    }
}

/// What was said of a question.
#[derive(Debug, Clone, Default, PartialEq, Eq)]
pub struct Judged {
    /// The root's type.
    pub ty: Vec<u8>,
    /// The diagnostics in order.
    pub reports: Vec<Diagnostic>,
    /// The visited nodes in the order in which they were finished, each with its type.
    pub finished: Vec<(usize, Vec<u8>)>,
    /// What decided, for counting.
    pub rulings: Rulings,
}

pub fn of(symbols: &Symbols, question: &Question) -> Judged {
    let mut judge = Judge { symbols, question, said: Judged::default() };
    let ty = judge.node(&question.tree);
    Judged { ty, ..judge.said }
}

struct Judge<'a> {
    symbols: &'a Symbols<'a>,
    question: &'a Question<'a>,
    said: Judged,
}

impl Judge<'_> {
    fn report(&mut self, kind: u8, node: usize, number: u16) {
        self.said.reports.push(Diagnostic { kind, node: node as u16, number });
    }

    /// What a rule gives at a node.
    fn rule(&mut self, node: usize, ruled: Ruled) -> Vec<u8> {
        for (kind, number) in ruled.reports {
            self.report(kind, node, number);
        }
        ruled.ty
    }

    fn node(&mut self, tree: &Tree) -> Vec<u8> {
        let node = tree.number;
        let ty = match &tree.shape {
            Shape::Leaf(ty) => ty.to_vec(),
            Shape::Named(_, value) => self.node(value),
            Shape::Binary(op, left, right) => {
                let (left, right) = (self.node(left), self.node(right));
                self.said.rulings.extend(rulings::of_binary(self.symbols, *op, &left, &right));
                self.rule(node, check_binary(self.symbols, *op, &left, &right))
            }
            Shape::Unary(op, operand) => {
                let operand = self.node(operand);
                self.rule(node, check_unary(*op, &operand))
            }
            Shape::Member(name, object) => {
                let object = self.node(object);
                self.said.rulings.extend(rulings::of_member(self.symbols, self.question, &object, *name));
                self.rule(node, check_member(self.symbols, self.question, &object, *name))
            }
            Shape::Call(name, arguments) => self.call(node, *name, arguments),
            Shape::Method(name, object, arguments) => {
                let object = self.node(object);
                self.method(node, *name, &object, arguments)
            }
        };
        self.said.finished.push((node, ty.clone()));
        ty
    }

    /// "an empty list gives Error silently, arguments unvisited."
    fn call(&mut self, node: usize, name: u16, arguments: &[Tree]) -> Vec<u8> {
        if self.symbols.functions(None, name).is_empty() {
            self.said.rulings.push("an empty list");
            return vec![ERROR];
        }
        self.listed(node, None, name, arguments)
    }

    /// "6 is `check_call`'s MemberAccess branch with an empty signature table and `check_builtin_method`
    /// answering Any unvisited: a base (the object's type, one Nullable taken off) that isn't Named, or has no
    /// list, gives Any and its arguments stay unvisited."
    fn method(&mut self, node: usize, name: u16, object: &[u8], arguments: &[Tree]) -> Vec<u8> {
        let owner = named_id(non_null(object));
        let first = owner.and_then(|owner| self.symbols.functions(Some(owner), name).first());
        let (Some(owner), Some(first)) = (owner, first) else {
            self.said.rulings.push("a method without a list");
            return vec![ANY];
        };
        self.said.rulings.extend(rulings::of_access(self.symbols, self.question, first.visibility, owner));
        if !is_allowed(self.symbols, self.question, first.visibility, owner) {
            self.report(20, node, first.visibility as u16);
        }
        self.listed(node, Some(owner), name, arguments)
    }

    /// `check_call_args` on a list that is not empty: "14 suspend", then the arguments, then the overloads.
    fn listed(&mut self, node: usize, owner: Option<u16>, name: u16, arguments: &[Tree]) -> Vec<u8> {
        if self.symbols.is_suspend(owner, name) && !self.question.in_suspend {
            self.report(14, node, 0);
        }
        let types: Vec<Vec<u8>> = arguments.iter().map(|a| self.node(a)).collect();
        let given = Argument::row(arguments, &types);
        let resolved = calls::resolve(self.symbols, self.symbols.functions(owner, name), node, &given);
        self.said.reports.extend(resolved.reports);
        self.said.rulings.extend(resolved.rulings);
        resolved.ty
    }
}
