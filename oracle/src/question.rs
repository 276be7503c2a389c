//! A question as the Rust's tree.

use crate::rust::{node_span, Expr, BIN_OPS, UN_OPS};
use crate::types::decode;
use reading::name::NONE;

/// A question as the Rust's methods take it.
pub struct Asked {
    pub current_type: Option<String>,
    pub package: Option<String>,
    pub in_suspend: bool,
    pub tree: Expr,
    /// Per node its position from 1 among its call's arguments, or 0.
    pub positions: Vec<u16>,
    /// Per node its kind.
    pub kinds: Vec<u8>,
}

struct Builder<'a> {
    bytes: &'a [u8],
    names: &'a [String],
    at: usize,
    positions: Vec<u16>,
    kinds: Vec<u8>,
}

impl Builder<'_> {
    fn name(&self, at: usize) -> String {
        self.names[u16::from_le_bytes([self.bytes[at], self.bytes[at + 1]]) as usize].clone()
    }

    fn arguments(&mut self, count: u8) -> Vec<Expr> {
        (1..=count as u16).map(|position| self.node(position)).collect()
    }

    fn node(&mut self, position: u16) -> Expr {
        let span = node_span(self.kinds.len());
        let start = self.at;
        let kind = self.bytes[start];
        self.positions.push(position);
        self.kinds.push(kind);
        match kind {
            0 => {
                let (ty, len) = decode(&self.bytes[start + 1..], self.names);
                self.at += 1 + len;
                Expr::Leaf(ty, span)
            }
            1 => {
                self.at += 2;
                let lhs = Box::new(self.node(0));
                let rhs = Box::new(self.node(0));
                Expr::Binary { op: BIN_OPS[self.bytes[start + 1] as usize], lhs, rhs, span }
            }
            2 => {
                self.at += 2;
                let operand = Box::new(self.node(0));
                Expr::Unary { op: UN_OPS[self.bytes[start + 1] as usize], operand, span }
            }
            3 => {
                self.at += 3;
                let value = Box::new(self.node(0));
                Expr::NamedArg { name: self.name(start + 1), value, span }
            }
            4 => {
                self.at += 3;
                let object = Box::new(self.node(0));
                Expr::MemberAccess { object, name: self.name(start + 1), span }
            }
            5 => {
                self.at += 4;
                let args = self.arguments(self.bytes[start + 3]);
                Expr::Call { name: self.name(start + 1), args, span }
            }
            6 => {
                self.at += 4;
                let object = Box::new(self.node(0));
                let args = self.arguments(self.bytes[start + 3]);
                let callee = Box::new(Expr::MemberAccess { object, name: self.name(start + 1), span });
                Expr::MethodCall { callee, args, span }
            }
            kind => panic!("{} is no kind of node", kind),
        }
    }
}

/// Reads an accepted question, without any check.
pub fn build(question: &[u8], names: &[String]) -> Asked {
    let optional = |at: usize| {
        let id = u16::from_le_bytes([question[at], question[at + 1]]);
        if id == NONE {
            None
        } else {
            Some(names[id as usize].clone())
        }
    };
    let mut builder = Builder { bytes: question, names, at: 5, positions: Vec::new(), kinds: Vec::new() };
    let tree = builder.node(0);
    Asked {
        current_type: optional(0),
        package: optional(2),
        in_suspend: question[4] == 1,
        tree,
        positions: builder.positions,
        kinds: builder.kinds,
    }
}
