//! Accepted tables with accepted questions, rich in what decides overloads.

use super::interfaces::put_interfaces;
use crate::bytes::*;
use crate::name::{built_in, BUILT_IN, NONE};
use crate::rng::Rng;

type Pair = (Bytes, Bytes);

/// A function list of the table under construction.
struct List {
    owner: u16,
    name: u16,
    overloads: Vec<Vec<Param>>,
}

/// What the question's generator knows of the table.
struct Model {
    table: Table,
    names: usize,
    /// Names that serve as types: classes, letters, collections.
    types: Vec<u16>,
    /// Names of one letter and near it.
    letters: Vec<u16>,
    packages: Vec<u16>,
    params: Vec<u16>,
    functions: Vec<u16>,
    fields: Vec<u16>,
    lists: Vec<List>,
    /// Types that parameters and arguments are drawn from, so that equal ones meet.
    pool: Vec<Bytes>,
}

const LETTERS: [&str; 8] = ["T", "U", "K", "A", "Z", "t", "TT", "9"];
const CLASSES: [&str; 7] = ["Page", "Scan", "Sheet", "Word", "Glyph", "Color", "Font"];
const FUNCTIONS: [&str; 6] = ["f", "g", "words", "deskew", "merge", "render"];
const PARAMS: [&str; 18] =
    ["a", "b", "c", "d", "e", "p", "q", "r", "s", "t2", "u2", "v", "w", "x", "y", "z", "left", "right"];
const FIELDS: [&str; 5] = ["title", "width", "RED", "next", "body"];
const PACKAGES: [&str; 3] = ["pkg", "lib", "app"];

/// A random type of at most some depth.
pub fn random_type(rng: &mut Rng, depth: usize, types: &[u16], error: bool) -> Bytes {
    let flat = depth == 0 || rng.chance(55);
    if flat {
        if rng.chance(25) && !types.is_empty() {
            return named(*rng.pick(types));
        }
        return match rng.below(20) {
            n @ 0..=11 => vec![n as u8],
            12 => vec![STRING],
            13 => vec![INT],
            14 => vec![ANY],
            15 => type_var(rng.below(3) as u32),
            16 => {
                let id = if types.is_empty() { 0 } else { *rng.pick(types) };
                module(id)
            }
            17 if error => vec![ERROR],
            18 => named(*rng.pick(&[0, 1, 2, 3, 4, 5])),
            _ => vec![BOOLEAN],
        };
    }
    let inner = random_type(rng, depth - 1, types, error);
    match rng.below(9) {
        0..=2 => nullable(&inner),
        3 => pointer(&inner),
        4 | 5 => list(&inner),
        6 => {
            let size = match rng.below(4) {
                0 => Some(3),
                1 => Some(rng.next() as u32 as u64),
                _ => None,
            };
            array(size, &inner)
        }
        7 => {
            let key = random_type(rng, depth - 1, types, error);
            map(&key, &inner)
        }
        _ => {
            let params: Vec<Bytes> = (0..rng.below(3)).map(|_| random_type(rng, depth - 1, types, error)).collect();
            let params: Vec<&[u8]> = params.iter().map(|p| p.as_slice()).collect();
            function(&params, &inner)
        }
    }
}

fn some_names(rng: &mut Rng, table: &mut Table, pool: &[&str], at_least: usize) -> Vec<u16> {
    let more = pool.len() - at_least;
    let most = if rng.chance(70) { more.min(2) } else { more };
    let count = at_least + rng.below(most + 1);
    let start = rng.below(pool.len());
    (0..count).map(|i| table.name(pool[(start + i) % pool.len()])).collect()
}

impl Model {
    fn new(rng: &mut Rng) -> Model {
        let mut table = Table::new();
        let mut types = some_names(rng, &mut table, &CLASSES, 2);
        let classes = types.clone();
        let letters = some_names(rng, &mut table, &LETTERS, 1);
        types.extend(&letters);
        let packages = some_names(rng, &mut table, &PACKAGES, 2);
        // Built-in names serve as parameters as well as any; they keep a table short.
        let params = if rng.chance(60) {
            (20..36 + rng.below(4) as u16).collect()
        } else {
            some_names(rng, &mut table, &PARAMS, 3)
        };
        let functions = some_names(rng, &mut table, &FUNCTIONS, 2);
        let mut fields = some_names(rng, &mut table, &FIELDS, 1);
        fields.push(built_in("size"));
        fields.push(built_in("toString"));
        let names = BUILT_IN.len() + table.records[0].len();
        let mut with_record = classes;
        with_record.extend(letters.iter().filter(|_| rng.chance(40)));
        let (lists, pool) = (Vec::new(), Vec::new());
        let mut model = Model { table, names, types, letters, packages, params, functions, fields, lists, pool };
        if rng.chance(20) {
            with_record.push(*rng.pick(&[0, 1, 2, 3, 4, 5]));
        }
        model.classes(rng, &with_record);
        model.types.extend([0, 1, 2, 3, 4, 5]);
        let pool = 3 + rng.below(6);
        model.pool = (0..pool).map(|_| random_type(rng, 2, &model.types, false)).collect();
        model.pool.push(vec![rng.below(12) as u8]);
        model
    }

    /// Class records, each with no superclass, an earlier one, or one without a record; some with interfaces.
    fn classes(&mut self, rng: &mut Rng, with_record: &[u16]) {
        let mut without: Vec<u16> = self.params.clone();
        without.truncate(2);
        for (i, class) in with_record.iter().enumerate() {
            if rng.chance(10) {
                without.push(*class);
                continue;
            }
            let superclass = match rng.below(10) {
                0..=5 if i > 0 => {
                    // An earlier class, mostly the one before; a skipped one has no record at all.
                    let back = if rng.chance(70) { 1 } else { 1 + rng.below(i) };
                    with_record[i - back]
                }
                6 => *rng.pick(&without),
                _ => NONE,
            };
            let package = if rng.chance(75) { *rng.pick(&self.packages) } else { NONE };
            self.table.class(*class, superclass, package, rng.chance(60));
        }
        // A class left out above may be a superclass or an interface: it has no record, so it may stand anywhere.
        put_interfaces(&mut rng.aside(), &mut self.table.records[1], &without);
    }

    fn operator_sets(&mut self, rng: &mut Rng, percent: usize) {
        for class in self.types.clone() {
            if rng.chance(percent) {
                let mask = match rng.below(4) {
                    0 => 0,
                    1 => 0x7ff,
                    2 => 1 << rng.below(11),
                    _ => (rng.next() % 0x800) as u16,
                };
                self.table.operators(class, mask);
            }
        }
    }

    fn parameter_type(&self, rng: &mut Rng) -> Bytes {
        match rng.below(14) {
            0 => vec![ANY],
            1 => vec![INT],
            2 => named(*rng.pick(&self.types)),
            3 | 4 => named(*rng.pick(&self.letters)),
            5 => vec![rng.below(6) as u8],
            6 => random_type(rng, 2, &self.types, false),
            _ => rng.pick(&self.pool).clone(),
        }
    }

    fn parameters(&self, rng: &mut Rng, most: usize) -> Vec<Param> {
        let count = rng.below(most.min(self.params.len()) + 1);
        let start = rng.below(self.params.len());
        let same = rng.chance(35);
        let first = self.parameter_type(rng);
        (0..count)
            .map(|i| {
                let ty = if same { first.clone() } else { self.parameter_type(rng) };
                let mut flag = if rng.chance(18) { DEFAULT } else { 0 };
                let last = i + 1 == count;
                if rng.chance(if last { 18 } else { 6 }) {
                    flag |= VARARG;
                }
                (self.params[(start + i) % self.params.len()], flag, ty)
            })
            .collect()
    }

    fn result_type(&self, rng: &mut Rng) -> Bytes {
        if rng.chance(12) {
            return vec![ANY];
        }
        if rng.chance(50) {
            return rng.pick(&self.pool).clone();
        }
        random_type(rng, 2, &self.types, false)
    }

    fn add_list(&mut self, rng: &mut Rng, owner: u16, name: u16) {
        if self.lists.iter().any(|l| l.owner == owner && l.name == name) {
            return;
        }
        let count = match rng.below(10) {
            0..=3 => 1,
            4..=6 => 2,
            7 | 8 => 3,
            _ => 4 + rng.below(3),
        };
        let most = if rng.chance(10) { 16 } else { 4 };
        let builtin = if rng.chance(30) {
            50
        } else if rng.chance(10) {
            100
        } else {
            0
        };
        let mut overloads: Vec<Vec<Param>> = Vec::new();
        let visibility = if rng.chance(50) { 0 } else { rng.below(4) as u8 };
        for _ in 0..count {
            let mut params = self.parameters(rng, most);
            if !overloads.is_empty() && rng.chance(35) {
                // A sibling of an earlier one: the same names, another type somewhere.
                params = rng.pick(&overloads).clone();
                if !params.is_empty() && rng.chance(80) {
                    let at = rng.below(params.len());
                    params[at].2 = match (rng.below(4), params[at].2[0]) {
                        (0, _) => vec![ANY],
                        (1 | 2, 0..=5) => vec![rng.below(6) as u8],
                        (1, _) => nullable(&params[at].2),
                        _ => self.parameter_type(rng),
                    };
                }
            }
            let visibility = if rng.chance(80) { visibility } else { rng.below(4) as u8 };
            let result = self.result_type(rng);
            self.table.function(owner, name, visibility, rng.chance(builtin), &result, &params);
            overloads.push(params);
        }
        self.lists.push(List { owner, name, overloads });
    }

    fn function_lists(&mut self, rng: &mut Rng) {
        for name in self.functions.clone() {
            if rng.chance(80) {
                self.add_list(rng, NONE, name);
            }
        }
        for _ in 0..rng.below(6) {
            let owner = *rng.pick(&self.types);
            let name = if rng.chance(70) {
                *rng.pick(&self.functions)
            } else if rng.chance(50) {
                *rng.pick(&self.fields)
            } else {
                6 + rng.below(11) as u16
            };
            self.add_list(rng, owner, name);
        }
        // Records of one list need not stand together.
        if rng.chance(20) {
            let records = &mut self.table.records[3];
            for _ in 0..records.len() {
                let (i, j) = (rng.below(records.len()), rng.below(records.len()));
                records.swap(i, j);
            }
        }
    }

    /// The members of kinds 5, 6 and 8, and suspend functions.
    fn members(&mut self, rng: &mut Rng, many: usize) {
        let mut seen = std::collections::HashSet::new();
        for _ in 0..many {
            let owner = *rng.pick(&self.types);
            let name = if rng.chance(80) { *rng.pick(&self.fields) } else { *rng.pick(&self.functions) };
            let kind = 5 + rng.below(3);
            if !seen.insert((kind, owner, name)) {
                continue;
            }
            match kind {
                5 => {
                    let ty = self.result_type(rng);
                    self.table.field(owner, name, &ty);
                }
                6 => self.table.visibility(owner, name, rng.below(4) as u8),
                _ => self.table.variant(owner, name),
            }
        }
        for list in &self.lists {
            if rng.chance(25) {
                self.table.suspend(list.owner, list.name);
            }
        }
    }

    fn header(&self, rng: &mut Rng) -> (u16, u16, bool) {
        let current = if rng.chance(50) { *rng.pick(&self.types) } else { NONE };
        let package = if rng.chance(65) { *rng.pick(&self.packages) } else { NONE };
        (current, package, rng.chance(40))
    }

    /// A type that often fits a parameter of type `p`.
    fn argument_type(&self, rng: &mut Rng, p: &[u8]) -> Bytes {
        let roll = rng.below(100);
        if roll < 50 {
            return p.to_vec();
        }
        if roll < 76 {
            return match rng.below(7) {
                0 => vec![ANY],
                1 => vec![NOTHING],
                2 => nullable(&[NOTHING]),
                3 => nullable(p),
                4 if p[0] == 12 => p[1..].to_vec(),
                _ => match p[0] {
                    0..=5 => vec![rng.below(6) as u8],
                    14 => match rng.below(3) {
                        0 => list(&p[6..]),
                        1 => array(Some(9), &p[6..]),
                        _ => named(*rng.pick(&[1, 2, 3])),
                    },
                    15 => match rng.below(3) {
                        0 => list(&[CHAR]),
                        1 => named(*rng.pick(&[1, 2, 3])),
                        _ => list(&[ANY]),
                    },
                    17 => named(*rng.pick(&self.types)),
                    _ => p.to_vec(),
                },
            };
        }
        if roll < 94 {
            return rng.pick(&self.pool).clone();
        }
        random_type(rng, 2, &self.types, true)
    }

    /// Arguments for a call of a list, within `nodes` nodes.
    fn arguments(&self, rng: &mut Rng, overloads: &[Vec<Param>], nodes: usize) -> Vec<Bytes> {
        let params = rng.pick::<Vec<Param>>(overloads);
        let mut count = params.len();
        match rng.below(10) {
            0 => count += 1 + rng.below(3),
            1 => count = count.saturating_sub(1 + rng.below(2)),
            2 => count = rng.below(5),
            _ => {}
        }
        count = count.min(16).min(nodes / 2);
        let naming = *rng.pick(&[0, 0, 0, 30, 60, 100]);
        // First who is named: an unnamed argument is made for the first parameter that nobody names, or for that at its place.
        let chosen: Vec<(Option<u16>, Option<&Param>)> = (0..count)
            .map(|i| {
                let param = params.get(i);
                if !rng.chance(naming) {
                    return (None, param);
                }
                match rng.below(10) {
                    0 => (Some(*rng.pick(&self.params)), param),
                    1 if rng.chance(50) => (Some(rng.below(self.names) as u16), param),
                    2 if !params.is_empty() => (Some(params[0].0), params.first()),
                    3 | 4 if !params.is_empty() => {
                        let other = rng.pick::<Param>(params);
                        (Some(other.0), Some(other))
                    }
                    _ => (param.map(|p| p.0), param),
                }
            })
            .collect();
        let free = params.iter().find(|p| chosen.iter().all(|(name, _)| *name != Some(p.0)));
        let aim = *rng.pick(&[0, 60, 100, 100]);
        let mut spare = nodes - 2 * count;
        chosen
            .into_iter()
            .map(|(name, param)| {
                let param = if name.is_none() && rng.chance(aim) { free.or(param) } else { param };
                let extra = if spare > 0 && rng.chance(20) { 1 + rng.below(spare.min(12)) } else { 0 };
                spare -= extra;
                let value = if extra > 0 {
                    self.expression(rng, 1 + extra)
                } else {
                    let ty = match param {
                        Some(p) => self.argument_type(rng, &p.2),
                        None => rng.pick(&self.pool).clone(),
                    };
                    leaf(&ty)
                };
                match name {
                    Some(id) => named_arg(id, &value),
                    None => value,
                }
            })
            .collect()
    }

    fn call(&self, rng: &mut Rng, nodes: usize) -> Bytes {
        let plain: Vec<&List> = self.lists.iter().filter(|l| l.owner == NONE).collect();
        if plain.is_empty() || rng.chance(3) {
            let args = self.arguments(rng, &[Vec::new()], nodes - 1);
            return call(rng.below(self.names) as u16, &args);
        }
        let list = *rng.pick(&plain);
        call(list.name, &self.arguments(rng, &list.overloads, nodes - 1))
    }

    fn method(&self, rng: &mut Rng, nodes: usize) -> Bytes {
        let owned: Vec<&List> = self.lists.iter().filter(|l| l.owner != NONE).collect();
        if owned.is_empty() || rng.chance(15) {
            let size = 1 + rng.below(nodes / 2);
            let object = self.expression(rng, size);
            let args = self.arguments(rng, &[Vec::new()], nodes - 1 - nodes / 2);
            return method(*rng.pick(&self.functions), &object, &args);
        }
        let list = *rng.pick(&owned);
        let object = match rng.below(8) {
            0 => {
                let size = 1 + rng.below(nodes / 2);
                self.expression(rng, size)
            }
            1 => leaf(&nullable(&named(list.owner))),
            2 => leaf(&nullable(&nullable(&named(list.owner)))),
            _ => leaf(&named(list.owner)),
        };
        let args = self.arguments(rng, &list.overloads, nodes - 1 - nodes / 2);
        method(list.name, &object, &args)
    }

    fn member(&self, rng: &mut Rng, nodes: usize) -> Bytes {
        let name = match rng.below(10) {
            0..=4 => *rng.pick(&self.fields),
            5 => *rng.pick(&self.functions),
            _ => rng.below(self.names) as u16,
        };
        let object = if rng.chance(60) {
            let ty = named(*rng.pick(&self.types));
            leaf(&if rng.chance(10) { nullable(&ty) } else { ty })
        } else {
            self.expression(rng, nodes - 1)
        };
        member(name, &object)
    }

    fn leaf(&self, rng: &mut Rng) -> Bytes {
        match rng.below(10) {
            0..=5 => leaf(rng.pick::<Bytes>(&self.pool)),
            6 | 7 => leaf(&[*rng.pick(&[INT, LONG, SHORT, BYTE, FLOAT, DOUBLE, STRING, BOOLEAN])]),
            8 => leaf(&named(*rng.pick(&self.types))),
            _ => leaf(&random_type(rng, 3, &self.types, true)),
        }
    }

    /// An expression of at most `nodes` nodes.
    fn expression(&self, rng: &mut Rng, nodes: usize) -> Bytes {
        if nodes < 2 || rng.chance(10) {
            return self.leaf(rng);
        }
        match rng.below(12) {
            0 | 1 if nodes >= 3 => {
                let left = 1 + rng.below(nodes - 2);
                let (l, r) = (self.expression(rng, left), self.expression(rng, nodes - 1 - left));
                binary(rng.below(23) as u8, &l, &r)
            }
            2 => {
                let operand = self.expression(rng, nodes - 1);
                unary(rng.below(7) as u8, &operand)
            }
            3 if nodes >= 3 => {
                // Numbers, so that a tree does not end in Error at once.
                let numbers = [INT, LONG, SHORT, BYTE, FLOAT, DOUBLE];
                let (l, r) = (leaf(&[*rng.pick(&numbers)]), self.expression(rng, nodes - 2));
                binary(rng.below(11) as u8, &l, &r)
            }
            4 => {
                let value = self.expression(rng, nodes - 1);
                named_arg(*rng.pick(&self.params), &value)
            }
            5 | 6 => self.member(rng, nodes),
            7 | 8 if nodes >= 4 => self.method(rng, nodes),
            _ => self.call(rng, nodes),
        }
    }

    fn ask(&self, rng: &mut Rng, tree: &[u8]) -> Bytes {
        let (current, package, in_suspend) = self.header(rng);
        question_in(current, package, in_suspend, tree)
    }
}

fn size(rng: &mut Rng) -> usize {
    match rng.below(10) {
        0..=5 => 2 + rng.below(12),
        6..=8 => 6 + rng.below(30),
        _ => 64,
    }
}

/// Everything.
pub fn rich(rng: &mut Rng) -> Pair {
    let mut model = Model::new(rng);
    model.operator_sets(rng, 30);
    model.function_lists(rng);
    let many = rng.below(16);
    model.members(rng, many);
    let nodes = size(rng);
    let tree = model.expression(rng, nodes);
    (model.table.bytes(), model.ask(rng, &tree))
}

/// A call or method call at the root.
pub fn calls(rng: &mut Rng) -> Pair {
    let mut model = Model::new(rng);
    model.function_lists(rng);
    if rng.chance(40) {
        model.members(rng, 2);
    }
    let nodes = if rng.chance(60) { 20 } else { 64 };
    let owned = model.lists.iter().any(|l| l.owner != NONE);
    let tree = if owned && rng.chance(35) { model.method(rng, nodes) } else { model.call(rng, nodes) };
    (model.table.bytes(), model.ask(rng, &tree))
}

/// Argument counts of 0 to 16, unknown names and mismatches at every position, ties of 2 to 5.
pub fn wide(rng: &mut Rng) -> Pair {
    let mut table = Table::new();
    let f = table.name("f");
    let owner = if rng.chance(25) { table.name("Page") } else { NONE };
    let packages = [NONE, built_in("keys"), built_in("trim")];
    if owner != NONE && rng.chance(80) {
        table.class(owner, NONE, *rng.pick(&packages), true);
    }
    let params: Vec<u16> = (20..36).collect();
    let stranger = 36;
    let count = if rng.chance(20) { 16 } else { rng.below(17) };
    let suspend = rng.chance(10);
    let int: Bytes = vec![INT];
    let mut args: Vec<Bytes> = Vec::new();
    let visibility = rng.below(4) as u8;
    let add = |table: &mut Table, params: &[Param]| {
        table.function(owner, f, visibility, false, &[STRING], params);
    };
    match rng.below(4) {
        0 => {
            // No overload takes this many.
            let short: Vec<Param> = (0..count.saturating_sub(1)).map(|i| (params[i], 0, int.clone())).collect();
            let long: Vec<Param> = (0..(count + 1).min(16)).map(|i| (params[i], 0, int.clone())).collect();
            if count > 0 {
                add(&mut table, &short);
            }
            if long.len() > count && (count == 0 || rng.chance(50)) {
                add(&mut table, &long);
            }
            args = (0..count).map(|_| leaf(&int)).collect();
        }
        1 => {
            // Unknown names at some positions.
            let row: Vec<Param> = (0..count).map(|i| (params[i], 0, int.clone())).collect();
            for _ in 0..1 + rng.below(3) {
                add(&mut table, &row);
            }
            for param in params.iter().take(count) {
                let name = if rng.chance(40) { stranger } else { *param };
                args.push(if rng.chance(80) { named_arg(name, &leaf(&int)) } else { leaf(&int) });
            }
        }
        2 => {
            // One overload, mismatches at some positions.
            let row: Vec<Param> = (0..count).map(|i| (params[i], 0, int.clone())).collect();
            add(&mut table, &row);
            for param in params.iter().take(count) {
                let ty = if rng.chance(40) { vec![STRING] } else { int.clone() };
                args.push(if rng.chance(30) { named_arg(*param, &leaf(&ty)) } else { leaf(&ty) });
            }
        }
        _ => {
            // Ties.
            let count = count.min(4);
            let ties = 2 + rng.below(4);
            for i in 0..ties + rng.below(2) {
                let ty = if i < ties { int.clone() } else { vec![LONG] };
                let row: Vec<Param> = (0..count).map(|i| (params[i], 0, ty.clone())).collect();
                add(&mut table, &row);
            }
            args = (0..count).map(|_| leaf(&int)).collect();
        }
    }
    if suspend {
        table.suspend(owner, f);
    }
    let tree = if owner == NONE { call(f, &args) } else { method(f, &leaf(&named(owner)), &args) };
    let current = if owner != NONE && rng.chance(30) { owner } else { NONE };
    let package = if owner != NONE { *rng.pick(&packages) } else { NONE };
    (table.bytes(), question_in(current, package, rng.chance(50), &tree))
}

/// A member or a method call of some base, with fields, variants, functions and visibilities.
pub fn members(rng: &mut Rng) -> Pair {
    let mut model = Model::new(rng);
    model.function_lists(rng);
    model.members(rng, 20);
    let name = match rng.below(10) {
        0..=4 => *rng.pick(&model.fields),
        5 => *rng.pick(&model.functions),
        _ => rng.below(model.names) as u16,
    };
    let ty = match rng.below(4) {
        0 => random_type(rng, 2, &model.types, true),
        _ => named(*rng.pick(&model.types)),
    };
    let ty = if rng.chance(12) { nullable(&ty) } else { ty };
    let tree = match rng.below(6) {
        0 => method(name, &leaf(&ty), &[leaf(&[INT])]),
        1 => model.method(rng, 20),
        2 => member(*rng.pick(&model.fields), &member(name, &leaf(&ty))),
        _ => member(name, &leaf(&ty)),
    };
    (model.table.bytes(), model.ask(rng, &tree))
}

/// Binary operators on classes with operator sets along their superclasses.
pub fn operators(rng: &mut Rng) -> Pair {
    let mut model = Model::new(rng);
    model.operator_sets(rng, 70);
    for _ in 0..6 {
        let owner = *rng.pick(&model.types);
        let name = 6 + rng.below(11) as u16;
        model.add_list(rng, owner, name);
    }
    let side = |rng: &mut Rng, model: &Model| {
        let ty = if rng.chance(60) { named(*rng.pick(&model.types)) } else { rng.pick(&model.pool).clone() };
        leaf(&if rng.chance(8) { nullable(&ty) } else { ty })
    };
    let mut tree = side(rng, &model);
    for _ in 0..1 + rng.below(4) {
        tree = match rng.below(6) {
            0 => unary(rng.below(7) as u8, &tree),
            _ => {
                let right = side(rng, &model);
                let op = if rng.chance(75) { rng.below(11) as u8 } else { rng.below(23) as u8 };
                if rng.chance(80) {
                    binary(op, &tree, &right)
                } else {
                    binary(op, &right, &tree)
                }
            }
        };
    }
    (model.table.bytes(), model.ask(rng, &tree))
}

/// Owners that are spelled like the `name()` of types that aren't Named.
pub fn outside(rng: &mut Rng) -> Pair {
    const SPELLINGS: [(&str, &[u8]); 10] = [
        ("Int", &[INT]),
        ("String", &[STRING]),
        ("Int?", &[12, INT]),
        ("List<Int>", &[15, INT]),
        ("Array<Int>", &[14, 0, 0, 0, 0, 0, INT]),
        ("Int[3]", &[14, 1, 3, 0, 0, 0, INT]),
        ("T7", &[19, 7, 0, 0, 0]),
        ("<error>", &[ERROR]),
        ("Pointer<Any>", &[13, ANY]),
        ("Any", &[ANY]),
    ];
    let mut table = Table::new();
    let (spelling, ty) = SPELLINGS[rng.below(SPELLINGS.len())];
    let owner = table.name(spelling);
    let f = table.name("f");
    let size = built_in("size");
    match rng.below(4) {
        0 => table.function(owner, f, rng.below(4) as u8, false, &[LONG], &[(f, 0, vec![INT])]),
        1 => table.field(owner, size, &[LONG]),
        2 => table.visibility(owner, size, rng.below(4) as u8),
        _ => table.variant(owner, size),
    }
    let ty = match rng.below(4) {
        0 => nullable(ty),
        1 => SPELLINGS[rng.below(SPELLINGS.len())].1.to_vec(),
        2 => named(owner),
        _ => ty.to_vec(),
    };
    let tree = match rng.below(4) {
        0 => method(f, &leaf(&ty), &[leaf(&[*rng.pick(&[INT, STRING])])]),
        1 => leaf(&ty),
        _ => member(size, &leaf(&ty)),
    };
    (table.bytes(), question(&tree))
}
