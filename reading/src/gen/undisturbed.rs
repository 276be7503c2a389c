//! Two tables, of which the second mostly has one function record more, and a question (document 02, order 7). The list
//! to which the function comes is mostly one that the question's calls read; the function is made near those of the
//! list and near what a call gives, and stands behind the list's last.

use super::arrays::LEAST;
use super::damage::{damage_bytes, damage_records};
use super::{buffer_length, case, raised, Profile};
use crate::bytes::*;
use crate::name::NONE;
use crate::places::{in_question, in_table, parts, with_sizes};
use crate::rng::Rng;
use crate::words::judgement;
use crate::words::question::{self, number_under, Shape, Tree};
use crate::words::symbols::Symbols;
use crate::words::table::{check, name_count, or_none, split, LIMIT};
use crate::words::types::{self, id, inner, is_array, is_numeric, named_id, non_null, two_bytes};
use std::collections::HashMap;

/// Two tables, a question, and the length of the diagnostics buffer to lend.
#[derive(Debug, Clone, PartialEq, Eq)]
pub struct Pair {
    pub old: Bytes,
    pub new: Bytes,
    pub question: Bytes,
    pub buffer: usize,
}

/// The stream of the pairs, which no profile has.
const STREAM: u64 = 65;

/// The profiles that tables and questions come from.
const FROM: [Profile; 8] = [
    Profile::Calls,
    Profile::Arguments,
    Profile::Classes,
    Profile::Rich,
    Profile::Calls,
    Profile::Arguments,
    Profile::Arrays,
    Profile::Members,
];

/// Built-in names that name parameters here.
const PARAMS: [u16; 20] = [20, 21, 22, 23, 24, 25, 27, 28, 34, 35, 37, 38, 39, 17, 18, 19, 26, 29, 30, 31];

const FUNCTION: u8 = 4;

/// Owner and name of a list.
type Key = (u16, u16);

/// A function's record taken apart.
#[derive(Debug, Clone)]
struct Overload {
    visibility: u8,
    builtin: bool,
    result: Bytes,
    params: Vec<Param>,
}

fn key(record: &[u8]) -> Option<Key> {
    (record[0] == FUNCTION).then(|| (two_bytes(record, 1), two_bytes(record, 3)))
}

impl Overload {
    fn of(record: &[u8]) -> Overload {
        let symbols = Symbols::of(record);
        let function = &symbols.functions(or_none(two_bytes(record, 1)), two_bytes(record, 3))[0];
        let flag = |default, vararg| if default { DEFAULT } else { 0 } | if vararg { VARARG } else { 0 };
        let params = function.params.iter().map(|p| (p.name, flag(p.default, p.vararg), p.ty.to_vec())).collect();
        let (visibility, builtin, result) = (function.visibility, function.builtin, function.result.to_vec());
        Overload { visibility, builtin, result, params }
    }

    fn record(&self, (owner, name): Key) -> Bytes {
        let mut table = Table::new();
        table.function(owner, name, self.visibility, self.builtin, &self.result, &self.params);
        table.bytes()
    }
}

/// An argument: its name, if it is a named one, and its type.
type Given = (Option<u16>, Bytes);

/// A visited call of a list, and what it gives.
struct Call {
    key: Key,
    arguments: Vec<Given>,
}

/// The visited calls that read a list, empty ones included, of which the arguments aren't visited.
fn calls(table: &[u8], question: &[u8]) -> Vec<Call> {
    let question = question::read(question);
    let types = judgement::of(&Symbols::of(table), &question).finished.into_iter().collect();
    let mut calls = Vec::new();
    visit(&question.tree, &types, &mut calls);
    calls
}

fn visit(tree: &Tree, types: &HashMap<usize, Bytes>, calls: &mut Vec<Call>) {
    let ty = |tree: &Tree| types.get(&tree.number).cloned();
    let row = |arguments: &[Tree]| {
        let one = |a: &Tree| Some((if let Shape::Named(name, _) = a.shape { Some(name) } else { None }, ty(a)?));
        arguments.iter().filter_map(one).collect()
    };
    if ty(tree).is_none() {
        return;
    }
    match &tree.shape {
        Shape::Leaf(_) => {}
        Shape::Named(_, below) | Shape::Unary(_, below) | Shape::Member(_, below) => visit(below, types, calls),
        Shape::Binary(_, left, right) => [left, right].iter().for_each(|side| visit(side, types, calls)),
        Shape::Call(name, arguments) => {
            calls.push(Call { key: (NONE, *name), arguments: row(arguments) });
            arguments.iter().for_each(|a| visit(a, types, calls));
        }
        Shape::Method(name, object, arguments) => {
            if let Some(owner) = ty(object).and_then(|ty| named_id(non_null(&ty))) {
                calls.push(Call { key: (owner, *name), arguments: row(arguments) });
            }
            [&**object].into_iter().chain(arguments).for_each(|below| visit(below, types, calls));
        }
    }
}

/// The old table's records and the question, while a pair is made.
struct Page {
    records: Vec<Bytes>,
    /// How many names there are.
    names: usize,
    question: Bytes,
    /// Types of the table and of the question's leaves, of the classes, and some more.
    pool: Vec<Bytes>,
}

/// The types of a parameter or an argument are mostly among these; none is longer than a table's, none has an Error.
fn pool(table: &[u8], question: &[u8]) -> Vec<Bytes> {
    let mut pool: Vec<Bytes> = in_table(table).into_iter().map(|place| table[place].to_vec()).collect();
    pool.truncate(40);
    pool.extend(in_question(question).into_iter().map(|place| question[place].to_vec()));
    let classes = class_places(table).into_iter().take(20);
    pool.extend(classes.map(|at| named(two_bytes(table, at + 1))));
    pool.extend([vec![INT], vec![STRING], vec![ANY], nullable(&[INT]), list(&[INT]), array(Some(LEAST), &[INT])]);
    pool.retain(|ty| is_of_table(ty));
    pool
}

fn is_of_table(ty: &[u8]) -> bool {
    ty.len() <= types::LIMIT && parts(ty).iter().all(|part| part[0] != ERROR)
}

impl Page {
    fn new(rng: &mut Rng, seed: u64, index: u64) -> Page {
        let mut from = case(FROM[(index % FROM.len() as u64) as usize], seed, index / FROM.len() as u64);
        if rng.chance(12) {
            (from.table, from.question) = with_sizes(&from.table, &from.question, &raised);
        }
        let is_accepted = |names: &usize| number_under(&from.question, *names) == 0;
        let names = check(&from.table).ok().filter(is_accepted).unwrap_or_else(|| {
            from = case(Profile::Calls, seed, index);
            name_count(&from.table)
        });
        let pool = pool(&from.table, &from.question);
        let records = split(&from.table).into_iter().map(<[u8]>::to_vec).collect();
        Page { records, names, question: from.question, pool }
    }

    fn table(&self) -> Bytes {
        self.records.concat()
    }

    /// The lists, each as often as it has functions.
    fn keys(&self) -> Vec<Key> {
        self.records.iter().filter_map(|record| key(record)).collect()
    }

    fn list(&self, of: Key) -> Vec<Overload> {
        self.records.iter().filter(|record| key(record) == Some(of)).map(|record| Overload::of(record)).collect()
    }

    fn class(&self, name: u16) -> Option<&Bytes> {
        self.records.iter().find(|record| record[0] == 2 && two_bytes(record, 1) == name)
    }

    /// A class above one, or the class itself.
    fn above(&self, rng: &mut Rng, class: u16) -> u16 {
        let parents = self.class(class).map_or([NONE; 3], |record| parents(record, 0));
        match *rng.pick(&parents) {
            NONE => class,
            parent if rng.chance(40) => self.above(rng, parent),
            parent => parent,
        }
    }

    /// A class with this one as a parent, or the class itself.
    fn below(&self, rng: &mut Rng, class: u16) -> u16 {
        let is_below = |record: &&Bytes| record[0] == 2 && parents(record, 0).contains(&class);
        let found: Vec<u16> = self.records.iter().filter(is_below).map(|record| two_bytes(record, 1)).collect();
        if found.is_empty() {
            class
        } else {
            *rng.pick(&found)
        }
    }

    /// A parameter's type that mostly takes a value of this one, and is another.
    fn wider(&self, rng: &mut Rng, ty: &[u8]) -> Bytes {
        let wide = match (rng.below(5), ty[0]) {
            (0, _) => vec![ANY],
            (1, _) => nullable(ty),
            (_, INT..=DOUBLE) => vec![rng.below(6) as u8],
            (_, types::NULLABLE) => inner(ty).to_vec(),
            (_, types::NAMED) => named(self.above(rng, id(ty))),
            (2, types::LIST) => list(rng.pick::<Bytes>(&self.pool)),
            (_, types::LIST) => array(None, inner(ty)),
            (_, kind) if is_array(kind) => array(*rng.pick(&[None, Some(9), Some(LEAST + 9)]), inner(ty)),
            _ => vec![ANY],
        };
        self.of_table(wide)
    }

    /// A value's type for a parameter of this one: mostly the same, else one that mostly goes there.
    fn narrower(&self, rng: &mut Rng, ty: &[u8]) -> Bytes {
        match (rng.below(20), ty[0]) {
            (0, _) => vec![ANY],
            (1, _) => nullable(&[NOTHING]),
            (2..=5, _) if is_numeric(ty) => vec![rng.below(6) as u8],
            (2..=5, types::NULLABLE) => inner(ty).to_vec(),
            (2..=8, types::NAMED) => named(self.below(rng, id(ty))),
            (2..=5, kind) if is_array(kind) => list(inner(ty)),
            _ => ty.to_vec(),
        }
    }

    /// A type that a table may have: this one, if it is such a one.
    fn of_table(&self, ty: Bytes) -> Bytes {
        if is_of_table(&ty) {
            ty
        } else {
            vec![ANY]
        }
    }
}

// Questions.

impl Page {
    /// Arguments for a function: mostly as many as it has parameters, mostly of their types.
    fn arguments(&self, rng: &mut Rng, params: &[Param]) -> Vec<Given> {
        let count = match rng.below(20) {
            0..=2 => params.len().saturating_sub(1 + rng.below(2)),
            3 | 4 => params.len() + 1 + rng.below(2),
            5 => rng.below(6),
            _ => params.len(),
        };
        let (naming, strange) = (*rng.pick(&[0, 0, 0, 30, 60, 100]), *rng.pick(&[0, 0, 10]));
        let slips = *rng.pick(&[0, 0, 0, 10, 40]);
        let one = |i| {
            let param: Option<&Param> = params.get(i);
            let ty = match param {
                Some(param) if !rng.chance(slips) => self.narrower(rng, &param.2),
                _ => rng.pick(&self.pool).clone(),
            };
            let name = match param {
                Some(param) if !rng.chance(strange) => param.0,
                _ => *rng.pick(&PARAMS),
            };
            (rng.chance(naming).then_some(name), ty)
        };
        (0..count.min(16)).map(one).collect()
    }

    /// A call of a list, made for one of its functions that doesn't drop out; in an argument another tree, where a
    /// result of the list may go.
    fn call(&self, rng: &mut Rng, key: Key, inside: Option<&[u8]>) -> Bytes {
        let list = self.list(key);
        let own: Vec<&Overload> = list.iter().filter(|f| !f.builtin).collect();
        let target = if own.is_empty() { rng.pick(&list) } else { rng.pick::<&Overload>(&own) };
        let arguments = self.arguments(rng, &target.params);
        let open = |ty: &Bytes| ty[0] == ANY || list.iter().any(|f| f.result == *ty);
        let places: Vec<usize> = (0..arguments.len()).filter(|i| open(&arguments[*i].1) || rng.chance(15)).collect();
        let place = (!places.is_empty()).then(|| *rng.pick(&places));
        let one = |(i, (name, ty)): (usize, &Given)| {
            let value = match inside {
                Some(tree) if Some(i) == place => tree.to_vec(),
                _ => leaf(ty),
            };
            name.map_or(value.clone(), |name| named_arg(name, &value))
        };
        let row: Vec<Bytes> = arguments.iter().enumerate().map(one).collect();
        let called = self.invoked(rng, key, &row);
        match inside {
            Some(tree) if place.is_none() => binary(EQ, tree, &called),
            _ => called,
        }
    }

    fn invoked(&self, rng: &mut Rng, (owner, name): Key, row: &[Bytes]) -> Bytes {
        if owner == NONE {
            return call(name, row);
        }
        let object = named(owner);
        method(name, &leaf(&if rng.chance(15) { nullable(&object) } else { object }), row)
    }

    /// A tree with one more call of a list, or with what reads no more of it than its first function.
    fn extended(&self, rng: &mut Rng, key: Key, tree: &[u8]) -> Bytes {
        let op = rng.below(23) as u8;
        match rng.below(10) {
            0..=2 => self.call(rng, key, Some(tree)),
            3 | 4 => binary(op, tree, &self.call(rng, key, None)),
            5 | 6 => binary(op, &self.call(rng, key, None), tree),
            // A call that isn't visited, since an Int has no list.
            7 => binary(op, &method(key.1, &leaf(&[INT]), &[self.call(rng, key, None)]), tree),
            8 if key.0 != NONE => binary(op, &member(key.1, &leaf(&named(key.0))), tree),
            _ => unary(rng.below(7) as u8, tree),
        }
    }

    /// A question of one to three calls of a list.
    fn ask(&mut self, rng: &mut Rng, key: Key) {
        let current = if key.0 != NONE && rng.chance(50) { key.0 } else { NONE };
        self.question = question_in(current, NONE, rng.chance(50), &self.call(rng, key, None));
        for _ in 0..*rng.pick(&[0, 0, 1, 1, 2]) {
            let tree = self.extended(rng, key, self.tree());
            self.put(&tree);
        }
    }

    fn tree(&self) -> &[u8] {
        &self.question[question::HEADER..]
    }

    /// Replaces the question's tree where the new question is accepted.
    fn put(&mut self, tree: &[u8]) {
        let question = [&self.question[..question::HEADER], tree].concat();
        if number_under(&question, self.names) == 0 {
            self.question = question;
        }
    }

    /// The visited calls of lists that are not empty, or of those that are.
    fn read(&self, empty: bool) -> Vec<Call> {
        let keys = self.keys();
        let mut calls = calls(&self.table(), &self.question);
        calls.retain(|call| keys.contains(&call.key) != empty);
        calls
    }
}

// The new function.

impl Page {
    /// A parameter's name that is not among these.
    fn free(&self, rng: &mut Rng, used: &[u16]) -> Option<u16> {
        let free: Vec<u16> = PARAMS.into_iter().filter(|name| !used.contains(name)).collect();
        (!free.is_empty()).then(|| *rng.pick(&free))
    }

    /// One parameter more.
    fn one_more(&self, rng: &mut Rng, params: &mut Vec<Param>, flag: u8) {
        let used: Vec<u16> = params.iter().map(|p| p.0).collect();
        if let (Some(name), true) = (self.free(rng, &used), params.len() < 16) {
            params.insert(rng.below(params.len() + 1), (name, flag, rng.pick(&self.pool).clone()));
        }
    }

    /// Parameters beside others: another type somewhere, another name, another order, another flag, one more or fewer.
    fn beside(&self, rng: &mut Rng, params: &mut Vec<Param>) {
        let used: Vec<u16> = params.iter().map(|p| p.0).collect();
        let Some(at) = (!params.is_empty()).then(|| rng.below(params.len())) else {
            return self.one_more(rng, params, 0);
        };
        match rng.below(12) {
            0..=2 => params[at].2 = rng.pick(&self.pool).clone(),
            3 | 4 => params[at].2 = self.wider(rng, &params[at].2.clone()),
            5 => params[at].0 = self.free(rng, &used).unwrap_or(params[at].0),
            6 => {
                let other = rng.below(params.len());
                (params[at].0, params[other].0) = (params[other].0, params[at].0);
            }
            7 => params[at].1 ^= DEFAULT,
            8 => params[at].1 ^= VARARG,
            9 => drop(params.remove(at)),
            _ => self.one_more(rng, params, 0),
        }
    }

    /// Parameters for what a call gives: exact, wider, or of another type somewhere; now and then with a name that no
    /// argument has.
    fn shaped(&self, rng: &mut Rng, arguments: &[Given]) -> Vec<Param> {
        let (wide, other) = *rng.pick(&[(0, 0), (50, 0), (100, 0), (100, 0), (20, 30), (20, 100), (60, 60)]);
        let strange = *rng.pick(&[0, 0, 30]);
        let mut used: Vec<u16> = arguments.iter().filter_map(|(name, _)| *name).collect();
        let mut params: Vec<Param> = Vec::new();
        for (name, ty) in arguments {
            let name = name.filter(|name| !rng.chance(strange) && params.iter().all(|p| p.0 != *name));
            let Some(name) = name.or_else(|| self.free(rng, &used)) else { continue };
            used.push(name);
            let ty = match rng.below(100) {
                roll if roll < wide => self.wider(rng, ty),
                roll if roll < wide + other => rng.pick(&self.pool).clone(),
                _ => self.of_table(ty.clone()),
            };
            let default = if rng.chance(8) { DEFAULT } else { 0 };
            params.push((name, default, ty));
        }
        if let (Some(last), true) = (params.last_mut(), rng.chance(8)) {
            last.1 |= VARARG;
        }
        params
    }

    /// A function for a list, near what a visited call gives.
    fn made(&self, rng: &mut Rng, list: &[Overload], call: Option<&Call>) -> Overload {
        let blank = Overload { visibility: 0, builtin: false, result: vec![STRING], params: Vec::new() };
        let mut new = if list.is_empty() { blank } else { rng.pick(list).clone() };
        new.builtin = rng.chance(if list.iter().all(|f| f.builtin) { 75 } else { 12 });
        if rng.chance(70) {
            new.result = rng.pick(&self.pool).clone();
        }
        if rng.chance(30) {
            new.visibility = rng.below(4) as u8;
        }
        match (rng.below(20), call) {
            (0, _) => {}
            (1..=4, _) | (_, None) => (0..1 + rng.below(2)).for_each(|_| self.beside(rng, &mut new.params)),
            (_, Some(call)) => {
                new.params = self.shaped(rng, &call.arguments);
                match rng.below(10) {
                    0 | 1 => self.one_more(rng, &mut new.params, 0),
                    2 => self.one_more(rng, &mut new.params, DEFAULT),
                    3 => drop(new.params.pop()),
                    _ => {}
                }
            }
        }
        new
    }
}

// The pair.

/// How the second table comes from the first.
#[derive(Debug, Clone, Copy, PartialEq, Eq)]
enum Form {
    /// A function behind the last of its list.
    Behind,
    InFront,
    Within,
    EmptyList,
    /// The old list has builtins alone; whether the new function is one too.
    Builtins(bool),
    TwoMore,
    OtherMore,
    /// As many records, or one fewer.
    NoneMore,
    OldDamaged,
    NewDamaged,
    QuestionDamaged,
    /// The second table is about as long as a table may be.
    Long,
}

fn form(rng: &mut Rng) -> Form {
    match rng.below(800) {
        0..=23 => Form::InFront,
        24..=39 => Form::Within,
        40..=63 => Form::EmptyList,
        64..=95 => Form::Builtins(false),
        96..=119 => Form::Builtins(true),
        120..=127 => Form::TwoMore,
        128..=135 => Form::OtherMore,
        136..=141 => Form::NoneMore,
        142..=146 => Form::OldDamaged,
        147..=152 => Form::NewDamaged,
        153..=160 => Form::QuestionDamaged,
        161 => Form::Long,
        _ => Form::Behind,
    }
}

impl Page {
    /// The list that the function comes to, with a question that mostly reads it.
    fn target(&mut self, rng: &mut Rng, form: Form) -> Key {
        let keys = self.keys();
        if form == Form::EmptyList || keys.is_empty() {
            return self.empty(rng, &keys);
        }
        let read = self.read(false);
        if read.is_empty() || rng.chance(45) {
            let key = *rng.pick(&keys);
            self.ask(rng, key);
            return key;
        }
        if rng.chance(4) {
            return *rng.pick(&keys);
        }
        let key = rng.pick(&read).key;
        if rng.chance(25) {
            let tree = self.extended(rng, key, self.tree());
            self.put(&tree);
        }
        key
    }

    /// A list that is empty, called by the question or by what is put beside it.
    fn empty(&mut self, rng: &mut Rng, keys: &[Key]) -> Key {
        let read = self.read(true);
        if !read.is_empty() && rng.chance(60) {
            return rng.pick(&read).key;
        }
        let owners = class_places(&self.table()).into_iter().map(|at| two_bytes(&self.table(), at + 1));
        let owners: Vec<u16> = owners.take(5).chain([NONE, NONE, NONE]).collect();
        let owner = *rng.pick(&owners);
        let names: Vec<u16> = PARAMS.into_iter().filter(|name| !keys.contains(&(owner, *name))).collect();
        let key = (owner, if names.is_empty() { PARAMS[0] } else { *rng.pick(&names) });
        let row: Vec<Bytes> = (0..rng.below(3)).map(|_| leaf(rng.pick::<Bytes>(&self.pool))).collect();
        let called = self.invoked(rng, key, &row);
        self.put(&if rng.chance(50) { binary(EQ, &called, self.tree()) } else { called });
        key
    }

    /// Where the new record is put: mostly behind the last of its list, and not behind all functions.
    fn place(&self, rng: &mut Rng, of: Key, form: Form) -> usize {
        let behind = |kind: u8| self.records.iter().position(|r| r[0] > kind).unwrap_or(self.records.len());
        let (start, end) = (behind(FUNCTION - 1), behind(FUNCTION));
        let own: Vec<usize> = (start..end).filter(|i| key(&self.records[*i]) == Some(of)).collect();
        let (first, last) = (own.first().copied().unwrap_or(end), own.last().map_or(start, |last| last + 1));
        match form {
            Form::InFront => start + rng.below(first - start + 1),
            Form::Within if own.len() > 1 => first + 1 + rng.below(last - 1 - first),
            _ if rng.chance(40) => end,
            _ => last + rng.below(end - last + 1),
        }
    }

    /// Functions of another list in front of all, so that the table with a record more has about the most bytes.
    fn lengthen(&mut self, rng: &mut Rng, (owner, name): Key, more: usize) {
        let other = if (owner, name) == (NONE, PARAMS[0]) { PARAMS[1] } else { PARAMS[0] };
        let mut left = (LIMIT - 2 + rng.below(5)).saturating_sub(more + self.table().len());
        let mut filling = Table::new();
        // A function without parameters has 9 to 200 bytes.
        while left >= 9 {
            let length = if left <= 200 { left } else { 200.min(left - 9) };
            filling.plain(other, &nullables(length - 9, &[INT]), &[]);
            left -= length;
        }
        let start = self.records.iter().position(|r| r[0] >= FUNCTION).unwrap_or(self.records.len());
        self.records.splice(start..start, filling.list());
    }

    /// A record of another kind, behind those of its kind.
    fn other_record(&self, rng: &mut Rng, (owner, name): Key) -> (usize, Bytes) {
        let owner = if owner == NONE { name } else { owner };
        let mut table = Table::new();
        match rng.below(6) {
            0 => drop(table.name("more")),
            1 => table.class(PARAMS[0], NONE, NONE, true),
            2 => table.operators(owner, 0x7ff),
            3 => table.field(owner, name, &[LONG]),
            4 => table.visibility(owner, name, 3),
            _ => table.suspend(*rng.pick(&[owner, NONE]), name),
        }
        let record = table.bytes();
        let place = self.records.iter().position(|r| r[0] > record[0]).unwrap_or(self.records.len());
        (place, record)
    }

    fn pair(mut self, rng: &mut Rng) -> (Bytes, Bytes, Bytes) {
        let form = form(rng);
        let of = self.target(rng, form);
        if let Form::Builtins(_) = form {
            self.records.iter_mut().filter(|record| key(record) == Some(of)).for_each(|record| record[6] = 1);
        }
        let list = self.list(of);
        let calls = self.read(list.is_empty());
        let calls: Vec<&Call> = calls.iter().filter(|call| call.key == of).collect();
        let call = (!calls.is_empty()).then(|| *rng.pick(&calls));
        let mut function = self.made(rng, &list, call);
        if let Form::Builtins(builtin) = form {
            function.builtin = builtin;
        }
        let record = function.record(of);
        if form == Form::Long {
            self.lengthen(rng, of, record.len());
        }
        let old = self.table();
        let (place, record) = match form {
            Form::OtherMore => self.other_record(rng, of),
            _ => (self.place(rng, of, form), record),
        };
        self.records.insert(place, record);
        self.changed(rng, form, old)
    }

    /// Both tables and the question, now that the function is among the records.
    fn changed(mut self, rng: &mut Rng, form: Form, mut old: Bytes) -> (Bytes, Bytes, Bytes) {
        match form {
            Form::TwoMore => {
                let is_function = |i: &usize| self.records[*i][0] == FUNCTION;
                let at = *rng.pick(&(0..self.records.len()).filter(is_function).collect::<Vec<_>>());
                self.records.insert(at, self.records[at].clone());
            }
            Form::NoneMore => (0..1 + rng.below(2)).for_each(|_| drop(self.records.pop())),
            Form::OldDamaged => old = damage_records(rng, &old),
            Form::QuestionDamaged => damage_bytes(rng, &mut self.question),
            _ => {}
        }
        let mut new = self.table();
        if form == Form::NewDamaged {
            damage_bytes(rng, &mut new);
        }
        (old, new, self.question)
    }
}

/// The pair of an index.
pub fn pair(seed: u64, index: u64) -> Pair {
    let mut rng = Rng::new(seed, STREAM, index);
    let page = Page::new(&mut rng, seed, index);
    let (old, new, question) = page.pair(&mut rng);
    Pair { old, new, question, buffer: buffer_length(&mut rng) }
}
