//! Lookups under an accepted table. "A list is the functions of one owner and name." "A function list keeps
//! table order; its first entry serves access, suspend, operator and member lookups."

use super::table::{or_none, ClassForm};
use super::types::{first, two_bytes};
use crate::name::{BUILT_IN, NONE};
use std::collections::{HashMap, HashSet};

/// "per parameter name, flag (bit 0 default, bit 1 vararg), type".
#[derive(Debug)]
pub struct Param<'a> {
    pub name: u16,
    pub default: bool,
    pub vararg: bool,
    pub ty: &'a [u8],
}

/// "4 function: owner, name, visibility .., flag (bit 0 builtin), count to 16; result type; ..".
#[derive(Debug)]
pub struct Function<'a> {
    pub visibility: u8,
    pub builtin: bool,
    pub result: &'a [u8],
    pub params: Vec<Param<'a>>,
}

#[derive(Debug)]
struct Class {
    superclass: Option<u16>,
    interfaces: [Option<u16>; 2],
    package: Option<u16>,
    in_types: bool,
}

/// Owner, if there is one, and name.
type Key = (Option<u16>, u16);

#[derive(Debug, Default)]
pub struct Symbols<'a> {
    names: Vec<&'a [u8]>,
    classes: HashMap<u16, Class>,
    operators: HashMap<u16, u16>,
    functions: HashMap<Key, Vec<Function<'a>>>,
    fields: HashMap<Key, &'a [u8]>,
    visibilities: HashMap<Key, u8>,
    suspends: HashSet<Key>,
    variants: HashSet<Key>,
}

impl<'a> Symbols<'a> {
    /// Reads an accepted table, without any check.
    pub fn of(table: &'a [u8]) -> Symbols<'a> {
        Symbols::of_form(table, ClassForm::Now)
    }

    /// The same of a table with class records of this form.
    pub fn of_form(table: &'a [u8], form: ClassForm) -> Symbols<'a> {
        let mut symbols = Symbols::default();
        let mut rest = table;
        while !rest.is_empty() {
            rest = &rest[symbols.take(rest, form)..];
        }
        symbols
    }

    /// Takes one record; answers its length.
    fn take(&mut self, r: &'a [u8], form: ClassForm) -> usize {
        if r[0] == 1 {
            self.names.push(&r[2..2 + r[1] as usize]);
            return 26;
        }
        let id = |at| two_bytes(r, at);
        let key = (or_none(id(1)), id(3));
        match r[0] {
            2 => {
                let (class, len) = class(r, form);
                self.classes.insert(id(1), class);
                len
            }
            3 => {
                self.operators.insert(id(1), id(3));
                5
            }
            4 => {
                let (function, len) = function(r);
                self.functions.entry(key).or_default().push(function);
                len
            }
            5 => {
                let ty = first(&r[5..]);
                self.fields.insert(key, ty);
                5 + ty.len()
            }
            6 => {
                self.visibilities.insert(key, r[5]);
                6
            }
            7 => {
                self.suspends.insert(key);
                5
            }
            8 => {
                self.variants.insert(key);
                5
            }
            kind => panic!("{} is no kind of record", kind),
        }
    }

    /// "Table names go on from 40."
    pub fn spelling(&self, id: u16) -> &[u8] {
        match BUILT_IN.get(id as usize) {
            Some(name) => name.as_bytes(),
            None => self.names[id as usize - BUILT_IN.len()],
        }
    }

    pub fn superclass(&self, class: u16) -> Option<u16> {
        self.classes.get(&class)?.superclass
    }

    /// The classes above one along superclasses, the nearest first. No accepted table has a ring of them; a climb ends all the
    /// same.
    pub fn climb(&self, class: u16) -> impl Iterator<Item = u16> + '_ {
        std::iter::successors(self.superclass(class), |met| self.superclass(*met)).take(NONE as usize)
    }

    /// The superclass and the interfaces of a class.
    pub fn parents(&self, class: u16) -> impl Iterator<Item = u16> + '_ {
        let class = self.classes.get(&class);
        class.into_iter().flat_map(|class| [class.superclass, class.interfaces[0], class.interfaces[1]]).flatten()
    }

    /// The classes that are reached from one. Document 02, order 6: "Assignability reaches through superclass and interfaces
    /// alike". Every class record leads on, in `types` or not; a class without a record is reached, and the way ends there.
    pub fn reached_from(&self, class: u16) -> HashSet<u16> {
        let mut reached = HashSet::new();
        let mut open = vec![class];
        while let Some(from) = open.pop() {
            open.extend(self.parents(from).filter(|parent| reached.insert(*parent)));
        }
        reached
    }

    pub fn package(&self, class: u16) -> Option<u16> {
        self.classes.get(&class)?.package
    }

    pub fn in_types(&self, name: u16) -> bool {
        self.classes.get(&name).is_some_and(|c| c.in_types)
    }

    /// The mask of a class that has an operator set.
    pub fn operators(&self, class: u16) -> Option<u16> {
        self.operators.get(&class).copied()
    }

    pub fn functions(&self, owner: Option<u16>, name: u16) -> &[Function<'a>] {
        self.functions.get(&(owner, name)).map_or(&[], |list| list)
    }

    pub fn field(&self, owner: u16, name: u16) -> Option<&'a [u8]> {
        self.fields.get(&(Some(owner), name)).copied()
    }

    pub fn visibility(&self, owner: u16, name: u16) -> Option<u8> {
        self.visibilities.get(&(Some(owner), name)).copied()
    }

    pub fn is_suspend(&self, owner: Option<u16>, name: u16) -> bool {
        self.suspends.contains(&(owner, name))
    }

    pub fn is_variant(&self, owner: u16, name: u16) -> bool {
        self.variants.contains(&(Some(owner), name))
    }
}

/// A class's record, and its length.
fn class(r: &[u8], form: ClassForm) -> (Class, usize) {
    let id = |at| or_none(two_bytes(r, at));
    let superclass = id(3);
    match form {
        ClassForm::Older => (Class { superclass, interfaces: [None; 2], package: id(5), in_types: r[7] == 1 }, 8),
        ClassForm::Now => (Class { superclass, interfaces: [id(5), id(7)], package: id(9), in_types: r[11] == 1 }, 12),
    }
}

/// A function's record, and its length.
fn function(r: &[u8]) -> (Function<'_>, usize) {
    let result = first(&r[8..]);
    let mut at = 8 + result.len();
    let mut params = Vec::new();
    for _ in 0..r[7] {
        let ty = first(&r[at + 3..]);
        let flag = r[at + 2];
        params.push(Param { name: two_bytes(r, at), default: flag & 1 == 1, vararg: flag & 2 == 2, ty });
        at += 3 + ty.len();
    }
    (Function { visibility: r[5], builtin: r[6] == 1, result, params }, at)
}
