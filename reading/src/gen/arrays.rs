//! Arrays of both kinds (document 02, order 5): in parameters, results, fields and leaves, where other Arrays, Lists and list
//! names are expected; members and operators; bodies that are malformed, cut or at the 192nd byte. Of the pages every other
//! has sizes below 2^32 alone, no superclass, and calls of one argument, so that the Rust is a yardstick.

use super::damage::telling_byte;
use super::interfaces::put_interfaces;
use crate::bytes::*;
use crate::name::{built_in, NONE};
use crate::rng::Rng;
use crate::words::types::{inner, is_array, LIST, NAMED, NULLABLE};

type Pair = (Bytes, Bytes);

/// The least size of kind 22.
pub const LEAST: u64 = 1 << 32;

/// Sizes of kind 14.
const SMALL: [Option<u64>; 7] = [None, None, Some(0), Some(1), Some(3), Some(256), Some(LEAST - 1)];

/// Sizes of kind 22.
const LARGE: [Option<u64>; 6] =
    [Some(LEAST), Some(LEAST + 1), Some(LEAST + 3), Some(1 << 40), Some(1 << 63), Some(u64::MAX)];

// Built-in names that name functions, fields and parameters here.
const F: u16 = 29;
const G: [u16; 2] = [30, 31];
const FIELDS: [u16; 4] = [32, 33, 36, 37];
const P: u16 = 20;
const Q: u16 = 21;

/// Members of an Array, and some that it has not.
const MEMBERS: [&str; 10] = ["size", "count", "isEmpty", "first", "last", "get", "getAt", "set", "second", "length"];

/// An element that a member gives.
const ELEMENTS: [&str; 4] = ["first", "last", "get", "getAt"];

struct Page {
    table: Table,
    page: u16,
    sizes: Vec<Option<u64>>,
    elements: Vec<Bytes>,
    /// Expressions beside leaves, each with its type.
    sources: Vec<(Bytes, Bytes)>,
    /// Whether the Rust is to be a yardstick.
    inside: bool,
}

impl Page {
    fn new(rng: &mut Rng, inside: bool) -> Page {
        let mut table = Table::new();
        let (page, scan, letter) = (table.name("Page"), table.name("Scan"), table.name("T"));
        let below = if !inside && rng.chance(25) { page } else { NONE };
        table.class(page, NONE, NONE, true);
        table.class(scan, below, NONE, rng.chance(70));
        if !inside {
            put_interfaces(&mut rng.aside(), &mut table.records[1], &[]);
        }
        let mut sizes: Vec<Option<u64>> = (0..1 + rng.below(2)).map(|_| *rng.pick(&SMALL)).collect();
        if !inside {
            sizes.extend((0..1 + rng.below(2)).map(|_| *rng.pick(&LARGE)));
        }
        let more = [
            vec![ANY],
            vec![CHAR],
            vec![NOTHING],
            vec![ERROR],
            named(page),
            named(scan),
            named(letter),
            nullable(&[INT]),
            pointer(&[INT]),
            list(&[INT]),
            map(&[STRING], &[INT]),
        ];
        let mut elements = vec![vec![INT], vec![LONG], vec![STRING], vec![BOOLEAN]];
        elements.extend((0..1 + rng.below(3)).map(|_| rng.pick::<Bytes>(&more).clone()));
        Page { table, page, sizes, elements, sources: Vec::new(), inside }
    }

    /// One of the page's sizes, so that equal types meet; now and then another.
    fn size(&self, rng: &mut Rng) -> Option<u64> {
        match rng.below(20) {
            0 => *rng.pick(&SMALL),
            1 if !self.inside => *rng.pick(&LARGE),
            2 => Some(rng.next() >> if self.inside { 32 } else { rng.below(64) }),
            _ => *rng.pick(&self.sizes),
        }
    }

    /// A type with an Array in it mostly, and more in each other as the depth allows.
    fn ty(&self, rng: &mut Rng, depth: usize) -> Bytes {
        let element = match depth > 0 && rng.chance(35) {
            true => self.ty(rng, depth - 1),
            false => rng.pick(&self.elements).clone(),
        };
        let array = |rng: &mut Rng| array(self.size(rng), &element);
        match rng.below(20) {
            0..=9 => array(rng),
            10 | 11 => list(&element),
            12 | 13 => named(*rng.pick(&[1, 2, 2, 3, 3, 4, 5])),
            14 | 15 => nullable(&array(rng)),
            16 => pointer(&array(rng)),
            17 => map(&[INT], &array(rng)),
            18 => function(&[&array(rng)], &element),
            _ => element,
        }
    }

    /// The same where Error has no place: in a table.
    fn ty_of_a_table(&self, rng: &mut Rng, depth: usize) -> Bytes {
        let ty = self.ty(rng, depth);
        if has_error(&ty) {
            return array(self.size(rng), &[INT]);
        }
        ty
    }

    /// Where a type may go: itself, another Array, a List or a list name around the same or another element.
    fn target(&self, rng: &mut Rng, from: &[u8]) -> Bytes {
        let kind = from[0];
        let to = match rng.below(20) {
            0..=4 => from.to_vec(),
            5..=13 if is_array(kind) || kind == LIST => {
                let element = if rng.chance(35) { self.target(rng, inner(from)) } else { inner(from).to_vec() };
                if rng.chance(15) {
                    list(&element)
                } else {
                    array(self.size(rng), &element)
                }
            }
            5..=13 if kind == NULLABLE => self.target(rng, inner(from)),
            5..=10 if kind == NAMED => array(self.size(rng), rng.pick::<Bytes>(&self.elements)),
            5..=10 if kind <= DOUBLE => vec![*rng.pick(&[INT, LONG, DOUBLE])],
            14 | 15 => nullable(from),
            16 => vec![ANY],
            _ => self.ty(rng, 1),
        };
        if has_error(&to) {
            return vec![ANY];
        }
        to
    }

    /// Fields of the class, and functions without parameters.
    fn add_sources(&mut self, rng: &mut Rng) {
        for name in &FIELDS[..1 + rng.below(FIELDS.len())] {
            let ty = self.ty_of_a_table(rng, 2);
            self.table.field(self.page, *name, &ty);
            self.sources.push((ty, member(*name, &leaf(&named(self.page)))));
        }
        for name in &G[..rng.below(3)] {
            let ty = self.ty_of_a_table(rng, 2);
            self.table.plain(*name, &ty, &[]);
            self.sources.push((ty, call(*name, &[])));
        }
    }

    /// The list of f, of the class or without an owner, for arguments of these types.
    fn add_list(&mut self, rng: &mut Rng, owner: u16, given: &[Bytes]) {
        for i in 0..*rng.pick(&[1, 1, 2, 2, 3, 4]) {
            let params: Vec<Param> = given
                .iter()
                .zip([P, Q])
                .map(|(from, name)| {
                    let flag = if name == Q && rng.chance(10) { *rng.pick(&[DEFAULT, VARARG]) } else { 0 };
                    (name, flag, self.target(rng, from))
                })
                .collect();
            let result =
                if rng.chance(30) { self.ty_of_a_table(rng, 1) } else { vec![[CHAR, BOOLEAN, DOUBLE, FLOAT][i]] };
            self.table.function(owner, F, 0, false, &result, &params);
        }
    }

    /// An expression of a type.
    fn value(&self, rng: &mut Rng, ty: &[u8]) -> Bytes {
        let source = self.sources.iter().find(|(other, _)| other == ty);
        match (rng.below(20), source) {
            (0..=7, Some((_, source))) => source.clone(),
            (8 | 9, _) => member(built_in(*rng.pick(&ELEMENTS)), &leaf(&array(self.size(rng), ty))),
            (10, _) => unary(DEREFERENCE, &leaf(&pointer(ty))),
            (11, _) => binary(AS, &leaf(&[INT]), &leaf(ty)),
            _ => leaf(ty),
        }
    }

    /// A type that is somewhere in the table, or any.
    fn some(&self, rng: &mut Rng) -> Bytes {
        if rng.chance(50) && !self.sources.is_empty() {
            return rng.pick(&self.sources).0.clone();
        }
        self.ty(rng, 2)
    }

    fn call(&mut self, rng: &mut Rng) -> Bytes {
        let count = if self.inside || rng.chance(65) { 1 } else { 2 };
        let given: Vec<Bytes> = (0..count).map(|_| self.some(rng)).collect();
        let owner = if rng.chance(30) { self.page } else { NONE };
        self.add_list(rng, owner, &given);
        let naming = *rng.pick(&[0, 0, 0, 50]);
        let mut args: Vec<Bytes> = Vec::new();
        for (ty, name) in given.iter().zip([P, Q]) {
            let ty = if rng.chance(8) { self.some(rng) } else { ty.clone() };
            let value = self.value(rng, &ty);
            args.push(if rng.chance(naming) { named_arg(name, &value) } else { value });
        }
        match owner {
            NONE => call(F, &args),
            _ => method(F, &leaf(&named(self.page)), &args),
        }
    }

    /// Two expressions of which one may go where the other is expected, and an operator.
    fn comparison(&self, rng: &mut Rng) -> Bytes {
        let from = self.some(rng);
        let to = self.target(rng, &from);
        let (mut left, mut right) = (self.value(rng, &from), self.value(rng, &to));
        if rng.chance(50) {
            (left, right) = (right, left);
        }
        let op = if rng.chance(75) { EQ + rng.below(2) as u8 } else { rng.below(23) as u8 };
        binary(op, &left, &right)
    }

    fn member(&self, rng: &mut Rng) -> Bytes {
        let ty = self.some(rng);
        let mut tree = self.value(rng, &ty);
        for _ in 0..rng.below(3) {
            tree = member(built_in(*rng.pick(&ELEMENTS)), &tree);
        }
        let name = if rng.chance(90) { built_in(*rng.pick(&MEMBERS)) } else { rng.below(40) as u16 };
        if rng.chance(5) {
            return method(name, &tree, &[leaf(&[INT])]);
        }
        member(name, &tree)
    }

    fn unary(&self, rng: &mut Rng) -> Bytes {
        let ty = self.some(rng);
        let operand = self.value(rng, &ty);
        let mut tree = unary(rng.below(7) as u8, &operand);
        for _ in 0..rng.below(3) {
            tree = unary(*rng.pick(&[ADDR_OF, ADDR_OF, DEREFERENCE]), &tree);
        }
        tree
    }
}

/// Whether Error stands in a type.
fn has_error(ty: &[u8]) -> bool {
    crate::words::types::read_type(ty).error
}

/// Accepted tables with accepted questions.
fn page(rng: &mut Rng, inside: bool) -> Pair {
    let mut page = Page::new(rng, inside);
    page.add_sources(rng);
    let mut tree = page.call(rng);
    for _ in 0..*rng.pick(&[0, 0, 1, 1, 2]) {
        let part = match rng.below(10) {
            0..=4 => page.comparison(rng),
            5..=8 => page.member(rng),
            _ => page.unary(rng),
        };
        // In place of what there is, or beside it.
        tree = match rng.below(3) {
            0 => part,
            _ => binary(*rng.pick(&[EQ, AND, TO, ASSIGN]), &tree, &part),
        };
    }
    (page.table.bytes(), question_in(NONE, NONE, rng.chance(50), &tree))
}

/// Kinds that are left open, with their bodies, so many bytes in all.
fn prefix(rng: &mut Rng, len: usize) -> Bytes {
    let mut bytes = Vec::new();
    let plain = rng.chance(40);
    while bytes.len() < len {
        let left = len - bytes.len();
        match rng.below(10) {
            0 if !plain && left >= 6 => bytes.extend(array(*rng.pick(&SMALL), &[])),
            1 | 2 if !plain && left >= 10 => bytes.extend(array(*rng.pick(&LARGE), &[])),
            3 if !plain && left >= 2 => bytes.extend([18, 0]),
            4 if !plain && left >= 2 => bytes.extend([16, INT]),
            5 if !plain && left >= 4 => bytes.extend([&[16][..], &named(*rng.pick(&[0, 39, 39, 40]))].concat()),
            _ => bytes.push(*rng.pick(&[12, 13, 15])),
        }
    }
    bytes
}

/// An Array whatever its kind, flag and size are, or what looks like one.
fn any_body(rng: &mut Rng, element: &[u8]) -> Bytes {
    let kind = *rng.pick(&[14, 14, 14, 22, 22, 22, 22, 22, 22, 23]);
    let flag = *rng.pick(&[1, 1, 1, 1, 1, 1, 0, 0, 2, 3, 128, 255]);
    let size = match rng.below(10) {
        0 => Some(rng.next() >> rng.below(64)),
        1..=4 => *rng.pick(&SMALL),
        _ => *rng.pick(&LARGE),
    };
    let size = size.unwrap_or(0).to_le_bytes();
    array_body(kind, flag, if kind == 14 { &size[..4] } else { &size }, element)
}

fn any_element(rng: &mut Rng) -> Bytes {
    match rng.below(12) {
        0 => named(*rng.pick(&[39, 40])),
        1 => vec![ERROR],
        2 => vec![23],
        3 => vec![],
        4 => array(Some(LEAST), &[INT]),
        5 => array(None, &[INT]),
        _ => vec![INT],
    }
}

/// The owner of a field.
const OWNER: u16 = 36;

/// A type in a result, a parameter, a field or a leaf, with a question that meets it; what is broken stands at the end of
/// the table or the question, or before more.
fn placed(rng: &mut Rng, ty: &[u8]) -> Pair {
    let mut table = Table::new();
    let (int, used) = (leaf(&[INT]), leaf(ty));
    let tree = match rng.below(8) {
        0..=2 => return (Vec::new(), question(&used)),
        3 => return (Vec::new(), question(&binary(rng.below(23) as u8, &used, &int))),
        4 => {
            table.plain(F, ty, &[]);
            call(F, &[])
        }
        5 => {
            table.plain(F, &[STRING], &[(P, 0, ty.to_vec())]);
            call(F, &[if rng.chance(50) { used } else { leaf(&list(&[INT])) }])
        }
        6 => {
            table.plain(F, &[STRING], &[(P, DEFAULT, vec![INT]), (Q, DEFAULT, ty.to_vec())]);
            call(F, &[named_arg(Q, &used)])
        }
        _ => {
            table.field(OWNER, FIELDS[0], ty);
            member(FIELDS[0], &leaf(&named(OWNER)))
        }
    };
    for name in 0..*rng.pick(&[0, 0, 1, 8, 40]) {
        table.suspend(NONE, name);
    }
    (table.bytes(), question(&tree))
}

/// A body near the 192nd byte of its type, whole, malformed or cut.
fn at_the_limit(rng: &mut Rng) -> Pair {
    let before = match rng.below(10) {
        0 => 181,
        1 => 182,
        2 => 183,
        _ => 170 + rng.below(24),
    };
    let element = any_element(rng);
    let mut ty = prefix(rng, before);
    ty.extend(any_body(rng, &element));
    match rng.below(10) {
        0..=2 => ty.truncate(184 + rng.below(12)),
        3 | 4 => {
            let filler = *rng.pick(&[0, 12, 22, 23]);
            ty.resize(ty.len() + rng.below(20), filler);
        }
        _ => {}
    }
    placed(rng, &ty)
}

/// A body that may be malformed or cut, in other types.
fn broken(rng: &mut Rng) -> Pair {
    let element = any_element(rng);
    let mut ty = any_body(rng, &element);
    if rng.chance(25) {
        ty.truncate(1 + rng.below(ty.len()));
    }
    for _ in 0..rng.below(3) {
        ty = match rng.below(6) {
            0 => nullable(&ty),
            1 => list(&ty),
            2 => any_body(rng, &ty),
            3 => map(&[INT], &ty),
            4 => map(&ty, &[INT]),
            _ => function(&[&ty], &[INT]),
        };
    }
    placed(rng, &ty)
}

/// Damages a byte of an Array's kind or body, or moves what stands behind.
fn damage_a_body(rng: &mut Rng, bytes: &mut Bytes) {
    let kinds: Vec<usize> = (0..bytes.len()).filter(|at| is_array(bytes[*at])).collect();
    if kinds.is_empty() {
        return;
    }
    let at = *rng.pick(&kinds) + rng.below(11);
    let byte = if rng.chance(60) { *rng.pick(&[0, 1, 2, 14, 22, 23, 255]) } else { telling_byte(rng) };
    match rng.below(8) {
        _ if at >= bytes.len() => {}
        0 => bytes.insert(at, byte),
        1 => drop(bytes.remove(at)),
        2 => bytes.truncate(at),
        _ => bytes[at] = byte,
    }
}

fn damaged(rng: &mut Rng, inside: bool) -> Pair {
    let (mut table, mut question) = page(rng, inside);
    for _ in 0..1 + rng.below(2) {
        let part = if rng.chance(50) { &mut table } else { &mut question };
        damage_a_body(rng, part);
    }
    (table, question)
}

pub fn arrays(rng: &mut Rng, index: u64) -> Pair {
    let inside = index % 2 == 0;
    match rng.below(20) {
        0 | 1 => at_the_limit(rng),
        2 | 3 => broken(rng),
        4 => damaged(rng, inside),
        _ => page(rng, inside),
    }
}
