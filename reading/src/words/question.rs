//! A question and the numbers 8 to 11. "A question: current type, package (2 bytes, 65,535 none), in-suspend
//! byte 0 or 1; then one tree, parent first."

use super::table::{name_count, or_none};
use super::types::{first, read_type, two_bytes, End};

pub const LIMIT: usize = 16_384;

/// "At most 64 nodes; numbered from 0 in byte order."
pub const NODES: usize = 64;

pub const HEADER: usize = 5;

/// A node's own bytes: how many, and how many children stand behind them; none where they are malformed or cut.
/// "Nodes: 0 leaf, a type; 1 binary, operator byte in `BinOp` order 0 to 22; 2 unary, `UnOp` order 0 to 6; 3
/// named argument, id; 4 member, id; 5 call, id and count to 16; 6 method call, id and count, object first."
fn front(bytes: &[u8]) -> Option<(usize, usize)> {
    match (bytes.first()?, bytes.len()) {
        (1, 2..) if bytes[1] <= 22 => Some((2, 2)),
        (2, 2..) if bytes[1] <= 6 => Some((2, 1)),
        (3 | 4, 3..) => Some((3, 1)),
        (kind @ (5 | 6), 4..) if bytes[3] <= 16 => Some((4, bytes[3] as usize + (*kind == 6) as usize)),
        _ => None,
    }
}

/// One node's own bytes: their length and the number of its children, or its number: "8 .. malformed, cut ..; 9
/// a 65th node; 10 undefined id; 11 leaf type without end in 192 bytes", "lowest number within it".
pub fn read_node(bytes: &[u8], names: usize, nodes_before: usize) -> Result<(usize, usize), u8> {
    let undefined = |id: u16| id as usize >= names;
    let (read, id_fault) = match bytes.first() {
        Some(0) => {
            let read = read_type(&bytes[1..]);
            let end = match read.end {
                End::Whole(len) => Ok((1 + len, 0)),
                End::Malformed | End::Cut => Err(8),
                End::Endless => Err(11),
            };
            (end, read.ids.into_iter().any(undefined))
        }
        _ => match front(bytes) {
            Some((len, children)) => (Ok((len, children)), len > 2 && undefined(two_bytes(bytes, 1))),
            None => (Err(8), false),
        },
    };
    if read == Err(8) {
        return read;
    }
    if nodes_before >= NODES {
        return Err(9);
    }
    if id_fault {
        return Err(10);
    }
    read
}

/// 0, or the number that refuses the question under a table with this many names: "8 over 16,384 bytes, malformed,
/// cut, or bytes behind the tree"; "lengths before contents; then the first faulty .. node (header before nodes)".
pub fn number_under(question: &[u8], names: usize) -> u8 {
    if question.len() > LIMIT || question.len() < HEADER || question[4] > 1 {
        return 8;
    }
    for at in [0, 2] {
        if or_none(two_bytes(question, at)).is_some_and(|id| id as usize >= names) {
            return 10;
        }
    }
    let (mut at, mut nodes, mut missing) = (HEADER, 0, 1);
    while missing > 0 {
        match read_node(&question[at..], names, nodes) {
            Ok((len, children)) => {
                at += len;
                missing = missing - 1 + children;
                nodes += 1;
            }
            Err(number) => return number,
        }
    }
    if at < question.len() {
        return 8;
    }
    0
}

/// The question's number under an accepted table.
pub fn question_number(table: &[u8], question: &[u8]) -> u8 {
    number_under(question, name_count(table))
}

/// A node with its number and what stands below it.
#[derive(Debug)]
pub struct Tree<'a> {
    pub number: usize,
    pub shape: Shape<'a>,
}

#[derive(Debug)]
pub enum Shape<'a> {
    Leaf(&'a [u8]),
    Binary(u8, Box<Tree<'a>>, Box<Tree<'a>>),
    Unary(u8, Box<Tree<'a>>),
    /// Name and value.
    Named(u16, Box<Tree<'a>>),
    /// Name and object.
    Member(u16, Box<Tree<'a>>),
    Call(u16, Vec<Tree<'a>>),
    /// Name, object and arguments.
    Method(u16, Box<Tree<'a>>, Vec<Tree<'a>>),
}

/// An accepted question.
#[derive(Debug)]
pub struct Question<'a> {
    pub current: Option<u16>,
    pub package: Option<u16>,
    pub in_suspend: bool,
    pub tree: Tree<'a>,
    /// Per node its kind.
    pub kinds: Vec<u8>,
    /// Per node its operator byte, or 0.
    pub operators: Vec<u8>,
}

/// Reads an accepted question, without any check.
pub fn read(question: &[u8]) -> Question<'_> {
    let mut reader = Reader { bytes: question, at: HEADER, kinds: Vec::new(), operators: Vec::new() };
    let tree = reader.tree();
    Question {
        current: or_none(two_bytes(question, 0)),
        package: or_none(two_bytes(question, 2)),
        in_suspend: question[4] == 1,
        tree,
        kinds: reader.kinds,
        operators: reader.operators,
    }
}

struct Reader<'a> {
    bytes: &'a [u8],
    at: usize,
    kinds: Vec<u8>,
    operators: Vec<u8>,
}

impl<'a> Reader<'a> {
    fn child(&mut self) -> Box<Tree<'a>> {
        Box::new(self.tree())
    }

    fn row(&mut self, count: u8) -> Vec<Tree<'a>> {
        (0..count).map(|_| self.tree()).collect()
    }

    fn tree(&mut self) -> Tree<'a> {
        let number = self.kinds.len();
        let own = &self.bytes[self.at..];
        self.kinds.push(own[0]);
        self.operators.push(if matches!(own[0], 1 | 2) { own[1] } else { 0 });
        if own[0] == 0 {
            let ty = first(&own[1..]);
            self.at += 1 + ty.len();
            return Tree { number, shape: Shape::Leaf(ty) };
        }
        self.at += front(own).expect("an accepted node").0;
        let id = || two_bytes(own, 1);
        let shape = match own[0] {
            1 => {
                let left = self.child();
                Shape::Binary(own[1], left, self.child())
            }
            2 => Shape::Unary(own[1], self.child()),
            3 => Shape::Named(id(), self.child()),
            4 => Shape::Member(id(), self.child()),
            5 => Shape::Call(id(), self.row(own[3])),
            _ => {
                let object = self.child();
                Shape::Method(id(), object, self.row(own[3]))
            }
        };
        Tree { number, shape }
    }
}
