//! Writing tables, questions and types in bytes, for the generator, the samples and the tests.

use crate::name::{BUILT_IN, NONE};

pub use crate::words::types::{
    ANY, BOOLEAN, BYTE, CHAR, DOUBLE, ERROR, FLOAT, INT, LONG, NOTHING, SHORT, STRING, UNIT,
};

pub type Bytes = Vec<u8>;

fn with(kind: u8, rest: &[&[u8]]) -> Bytes {
    let mut bytes = vec![kind];
    for part in rest {
        bytes.extend_from_slice(part);
    }
    bytes
}

pub fn nullable(inner: &[u8]) -> Bytes {
    with(12, &[inner])
}

pub fn pointer(inner: &[u8]) -> Bytes {
    with(13, &[inner])
}

/// An Array of the kind that its size asks for: from 2^32 on a large one.
pub fn array(size: Option<u64>, inner: &[u8]) -> Bytes {
    let number = size.unwrap_or(0);
    match u32::try_from(number) {
        Ok(small) => array_body(14, size.is_some() as u8, &small.to_le_bytes(), inner),
        Err(_) => array_body(22, 1, &number.to_le_bytes(), inner),
    }
}

/// An Array whose body may be malformed.
pub fn array_body(kind: u8, flag: u8, size: &[u8], inner: &[u8]) -> Bytes {
    with(kind, &[&[flag], size, inner])
}

pub fn list(inner: &[u8]) -> Bytes {
    with(15, &[inner])
}

pub fn map(key: &[u8], value: &[u8]) -> Bytes {
    with(16, &[key, value])
}

pub fn named(id: u16) -> Bytes {
    with(17, &[&id.to_le_bytes()])
}

pub fn function(params: &[&[u8]], result: &[u8]) -> Bytes {
    with(18, &[&[params.len() as u8], &params.concat(), result])
}

pub fn type_var(n: u32) -> Bytes {
    with(19, &[&n.to_le_bytes()])
}

pub fn module(id: u16) -> Bytes {
    with(20, &[&id.to_le_bytes()])
}

/// `n` times Nullable over a type.
pub fn nullables(n: usize, inner: &[u8]) -> Bytes {
    let mut bytes = vec![12; n];
    bytes.extend_from_slice(inner);
    bytes
}

// Nodes.

pub fn leaf(ty: &[u8]) -> Bytes {
    with(0, &[ty])
}

pub fn binary(op: u8, left: &[u8], right: &[u8]) -> Bytes {
    with(1, &[&[op], left, right])
}

pub fn unary(op: u8, operand: &[u8]) -> Bytes {
    with(2, &[&[op], operand])
}

pub fn named_arg(id: u16, value: &[u8]) -> Bytes {
    with(3, &[&id.to_le_bytes(), value])
}

pub fn member(id: u16, object: &[u8]) -> Bytes {
    with(4, &[&id.to_le_bytes(), object])
}

pub fn call(id: u16, args: &[Bytes]) -> Bytes {
    with(5, &[&id.to_le_bytes(), &[args.len() as u8], &args.concat()])
}

pub fn method(id: u16, object: &[u8], args: &[Bytes]) -> Bytes {
    with(6, &[&id.to_le_bytes(), &[args.len() as u8], object, &args.concat()])
}

pub fn question_in(current_type: u16, package: u16, in_suspend: bool, tree: &[u8]) -> Bytes {
    let mut bytes = Vec::new();
    bytes.extend_from_slice(&current_type.to_le_bytes());
    bytes.extend_from_slice(&package.to_le_bytes());
    bytes.push(in_suspend as u8);
    bytes.extend_from_slice(tree);
    bytes
}

/// A question with no current type, no package, outside suspend.
pub fn question(tree: &[u8]) -> Bytes {
    question_in(NONE, NONE, false, tree)
}

// Operators by number.

pub const ADD: u8 = 0;
pub const SUB: u8 = 1;
pub const EQ: u8 = 5;
pub const LT: u8 = 7;
pub const AND: u8 = 11;
pub const BIT_AND: u8 = 13;
pub const ASSIGN: u8 = 19;
pub const TO: u8 = 20;
pub const IS: u8 = 21;
pub const AS: u8 = 22;
pub const MINUS: u8 = 0;
pub const NOT: u8 = 1;
pub const INCREMENT: u8 = 2;
pub const ADDR_OF: u8 = 4;
pub const DEREFERENCE: u8 = 5;
pub const NOT_NULL: u8 = 6;

pub const DEFAULT: u8 = 1;
pub const VARARG: u8 = 2;

/// A class record whose flag may be malformed: name, superclass and interfaces, package, flag.
pub fn class_record(name: u16, parents: [u16; 3], package: u16, flag: u8) -> Bytes {
    let [superclass, first, second] = parents;
    let ids = [name, superclass, first, second, package].map(u16::to_le_bytes);
    with(2, &[ids.as_flattened(), &[flag]])
}

/// A parameter: name, flag, type.
pub type Param = (u16, u8, Bytes);

/// The records of a table, by kind.
#[derive(Debug, Clone, Default)]
pub struct Table {
    pub records: [Vec<Bytes>; 8],
}

impl Table {
    pub fn new() -> Table {
        Table::default()
    }

    /// A table of name records; the first has number 40.
    pub fn with_names(names: &[&str]) -> Table {
        let mut table = Table::new();
        for name in names {
            table.name(name);
        }
        table
    }

    fn push(&mut self, kind: u8, fields: &[&[u8]]) {
        self.records[kind as usize - 1].push(with(kind, fields));
    }

    /// A name record; answers the name's number.
    pub fn name(&mut self, name: &str) -> u16 {
        let mut padded = [0; 24];
        padded[..name.len()].copy_from_slice(name.as_bytes());
        self.push(1, &[&[name.len() as u8], &padded]);
        (BUILT_IN.len() + self.records[0].len() - 1) as u16
    }

    /// A class without interfaces.
    pub fn class(&mut self, name: u16, superclass: u16, package: u16, in_types: bool) {
        self.class_below(name, [superclass, NONE, NONE], package, in_types);
    }

    /// A class with its superclass and its two interfaces.
    pub fn class_below(&mut self, name: u16, parents: [u16; 3], package: u16, in_types: bool) {
        self.records[1].push(class_record(name, parents, package, in_types as u8));
    }

    pub fn operators(&mut self, class: u16, mask: u16) {
        self.push(3, &[&class.to_le_bytes(), &mask.to_le_bytes()]);
    }

    pub fn function(&mut self, owner: u16, name: u16, visibility: u8, builtin: bool, result: &[u8], params: &[Param]) {
        let mut tail = Vec::new();
        for (name, flag, ty) in params {
            tail.extend_from_slice(&name.to_le_bytes());
            tail.push(*flag);
            tail.extend_from_slice(ty);
        }
        self.push(
            4,
            &[
                &owner.to_le_bytes(),
                &name.to_le_bytes(),
                &[visibility, builtin as u8, params.len() as u8],
                result,
                &tail,
            ],
        );
    }

    /// A public function without an owner.
    pub fn plain(&mut self, name: u16, result: &[u8], params: &[Param]) {
        self.function(NONE, name, 0, false, result, params);
    }

    pub fn field(&mut self, owner: u16, name: u16, ty: &[u8]) {
        self.push(5, &[&owner.to_le_bytes(), &name.to_le_bytes(), ty]);
    }

    pub fn visibility(&mut self, owner: u16, name: u16, visibility: u8) {
        self.push(6, &[&owner.to_le_bytes(), &name.to_le_bytes(), &[visibility]]);
    }

    pub fn suspend(&mut self, owner: u16, name: u16) {
        self.push(7, &[&owner.to_le_bytes(), &name.to_le_bytes()]);
    }

    pub fn variant(&mut self, owner: u16, name: u16) {
        self.push(8, &[&owner.to_le_bytes(), &name.to_le_bytes()]);
    }

    pub fn bytes(&self) -> Bytes {
        self.records.iter().flatten().flatten().copied().collect()
    }

    /// The records one by one, in order.
    pub fn list(&self) -> Vec<Bytes> {
        self.records.iter().flatten().cloned().collect()
    }
}

/// The bytes of a name, and of a class.
pub const NAME: usize = 26;
pub const CLASS: usize = 12;

/// Where the class records of a table begin, up to the first byte that begins neither a name nor a whole class.
pub fn class_places(table: &[u8]) -> Vec<usize> {
    let mut places = Vec::new();
    let mut at = 0;
    loop {
        at += match &table[at..] {
            [1, ..] if table.len() >= at + NAME => NAME,
            [2, ..] if table.len() >= at + CLASS => {
                places.push(at);
                CLASS
            }
            _ => return places,
        }
    }
}

/// A class record's fields of two bytes: name, superclass, first and second interface, package.
fn class_field(table: &[u8], class: usize, field: usize) -> u16 {
    let at = class + 1 + 2 * field;
    u16::from_le_bytes([table[at], table[at + 1]])
}

/// The superclass and the two interfaces of the class record at a place.
pub fn parents(table: &[u8], class: usize) -> [u16; 3] {
    [1, 2, 3].map(|field| class_field(table, class, field))
}

/// The same table with no superclass and no interface in any class record.
pub fn without_parents(table: &[u8]) -> Bytes {
    let mut bytes = table.to_vec();
    for class in class_places(table) {
        bytes[class + 3..class + 9].fill(0xff);
    }
    bytes
}

/// The same table with no interface in any class record.
pub fn without_interfaces(table: &[u8]) -> Bytes {
    let mut bytes = table.to_vec();
    for class in class_places(table) {
        bytes[class + 5..class + 9].fill(0xff);
    }
    bytes
}

/// The same table with class records of 8 bytes, as they were before document 02's order 6; none where a class has an
/// interface.
pub fn older(table: &[u8]) -> Option<Bytes> {
    let mut bytes = Vec::new();
    let mut at = 0;
    for class in class_places(table) {
        if parents(table, class)[1..] != [NONE, NONE] {
            return None;
        }
        bytes.extend_from_slice(&table[at..class + 5]);
        at = class + 9;
    }
    bytes.extend_from_slice(&table[at..]);
    Some(bytes)
}
