//! Classes along superclasses (document 02, order 2) and interfaces (order 6): chains, trees, towers and unrelated ones, with
//! questions whose answer depends on who stands above whom. Half of the tables have their superclasses and interfaces taken
//! out, so that the same shapes are asked where no class has one.

use crate::bytes::*;
use crate::name::{BUILT_IN, NONE};
use crate::rng::Rng;
use std::collections::{HashMap, HashSet};

type Pair = (Bytes, Bytes);
type Wrap = fn(&[u8]) -> Bytes;

/// What may stand around a class in a type.
pub const WRAPS: [Wrap; 18] = [
    |x| x.to_vec(),
    |x| array(None, x),
    |x| array(Some(3), x),
    |x| array(None, &array(Some(2), x)),
    list,
    |x| list(&list(x)),
    nullable,
    |x| nullables(2, x),
    |x| nullable(&array(None, x)),
    |x| array(None, &nullable(x)),
    |x| nullable(&list(x)),
    pointer,
    |x| map(x, &[INT]),
    |x| map(&[STRING], x),
    |x| function(&[x], &[UNIT]),
    |x| function(&[], x),
    |x| array(None, &pointer(x)),
    |x| nullables(189, x),
];

/// The place of the longest, which is drawn seldom: 192 bytes.
const DEEP: usize = 17;

/// Places of wrappings between which a type may go, left to right: by its class, then as a whole.
const GOES: [(usize, usize); 34] = [
    (0, 0),
    (0, 6),
    (0, 7),
    (1, 1),
    (1, 2),
    (1, 8),
    (1, 9),
    (2, 1),
    (3, 3),
    (4, 1),
    (4, 2),
    (4, 4),
    (4, 8),
    (4, 9),
    (5, 3),
    (6, 0),
    (6, 6),
    (7, 0),
    (7, 6),
    (8, 1),
    (8, 8),
    (8, 9),
    (9, 1),
    (9, 9),
    (10, 1),
    (10, 8),
    (DEEP, 0),
    (DEEP, DEEP),
    (11, 11),
    (12, 12),
    (13, 13),
    (14, 14),
    (15, 15),
    (16, 16),
];

const LETTERS: [&str; 4] = ["T", "U", "K", "Z"];

/// Built-in names that name functions, fields and parameters here.
const FUNCTIONS: [u16; 3] = [26, 29, 30];
const FIELDS: [u16; 4] = [31, 32, 33, 36];
const PARAMS: [u16; 16] = [20, 21, 22, 23, 24, 25, 27, 28, 34, 35, 37, 38, 39, 17, 18, 19];

/// A class in a wrapping.
#[derive(Debug, Clone, Copy)]
struct Shape {
    wrap: usize,
    class: u16,
}

impl Shape {
    fn ty(self) -> Bytes {
        WRAPS[self.wrap](&named(self.class))
    }
}

/// A list of overloads, and the arguments that it was made for.
struct List {
    owner: u16,
    name: u16,
    params: Vec<u16>,
    args: Vec<Shape>,
}

struct Family {
    table: Table,
    /// The names that serve as classes, with a record or without one.
    classes: Vec<u16>,
    superclasses: HashMap<u16, u16>,
    /// The superclass and the interfaces of a class, each once.
    parents: HashMap<u16, Vec<u16>>,
    /// Expressions beside leaves that have a shape's type: a field, a call without arguments.
    sources: Vec<(Shape, Bytes)>,
    lists: Vec<List>,
    /// The owners and names of fields with a visibility.
    guarded: Vec<(u16, u16)>,
    /// Classes with an operator that is looked for from them on.
    climbs: Vec<(u16, u8)>,
}

fn shuffle<T>(rng: &mut Rng, items: &mut [T]) {
    for i in (1..items.len()).rev() {
        items.swap(i, rng.below(i + 1));
    }
}

/// The form of a family whose classes stand in levels of three, each with all three of the level above as its parents.
const TOWER: usize = 4;

/// Who may stand above whom: one chain, a tree, a wood, chains beside each other, or a tower. Some classes have no record.
struct Plan {
    bare: Vec<u16>,
    recorded: Vec<u16>,
    form: usize,
    length: usize,
    /// In how many of 100 classes each of the interfaces is there.
    interfaces: usize,
}

impl Plan {
    fn new(rng: &mut Rng, classes: &[u16]) -> Plan {
        let without = *rng.pick(&[0, 0, 10, 25]);
        let (bare, recorded) = classes.iter().partition(|_| rng.chance(without));
        let (form, length) = (rng.below(5), 2 + rng.below(6));
        let interfaces = if form == TOWER { 100 } else { *rng.pick(&[0, 0, 20, 60, 100]) };
        Plan { bare, recorded, form, length, interfaces }
    }

    /// An earlier class as a parent of the class at a place among those with a record, or a class without one.
    fn parent(&self, rng: &mut Rng, i: usize, place: usize) -> Option<u16> {
        let earlier = match self.form {
            0 if i > 0 => Some(self.recorded[i - 1]),
            1 if i > 0 => Some(self.recorded[rng.below(i)]),
            2 if i > 0 && rng.chance(65) => Some(self.recorded[rng.below(i)]),
            3 if i % self.length > 0 => Some(self.recorded[i - 1]),
            TOWER if i >= 3 => Some(self.recorded[i / 3 * 3 - 3 + place]),
            _ => None,
        };
        let alone = earlier.is_none() && rng.chance(50);
        if !self.bare.is_empty() && (alone || rng.chance(8)) {
            return Some(*rng.pick(&self.bare));
        }
        earlier
    }

    /// The superclass and the two interfaces of a class: of these now and then one is the superclass or the other.
    fn parents(&self, rng: &mut Rng, i: usize) -> [Option<u16>; 3] {
        let mut parents = [self.parent(rng, i, 0), None, None];
        for place in [1, 2] {
            if rng.chance(self.interfaces) {
                parents[place] = match rng.below(10) {
                    0 => parents[0],
                    1 => parents[1],
                    2 if i > 0 => Some(self.recorded[rng.below(i)]),
                    _ => self.parent(rng, i, place),
                };
            }
        }
        parents
    }
}

impl Family {
    fn new(rng: &mut Rng) -> Family {
        let mut table = Table::new();
        let own = match rng.below(10) {
            0..=5 => 2 + rng.below(5),
            6..=8 => 6 + rng.below(12),
            _ => 20 + rng.below(30),
        };
        let letters = if rng.chance(40) { 1 + rng.below(LETTERS.len()) } else { 0 };
        let mut classes: Vec<u16> = (0..own).map(|i| table.name(&format!("C{}", i))).collect();
        classes.extend(LETTERS[..letters].iter().map(|letter| table.name(letter)));
        // List, ArrayList and MutableList, then the other built-in names that are types.
        classes.extend((1..=3).filter(|_| rng.chance(25)));
        classes.extend([0, 4, 5].iter().filter(|_| rng.chance(6)));
        shuffle(rng, &mut classes);
        let mut family = Family {
            table,
            classes,
            superclasses: HashMap::new(),
            parents: HashMap::new(),
            sources: Vec::new(),
            lists: Vec::new(),
            guarded: Vec::new(),
            climbs: Vec::new(),
        };
        family.records(rng);
        family
    }

    fn records(&mut self, rng: &mut Rng) {
        let plan = Plan::new(rng, &self.classes);
        let in_types = *rng.pick(&[0, 50, 50, 100, 100]);
        for (i, class) in plan.recorded.iter().enumerate() {
            let parents = plan.parents(rng, i);
            let package = if rng.chance(20) { *rng.pick(&PARAMS[..2]) } else { NONE };
            let ids = parents.map(|parent| parent.unwrap_or(NONE));
            self.table.class_below(*class, ids, package, rng.chance(in_types));
            self.put_parents(*class, parents);
        }
    }

    fn put_parents(&mut self, class: u16, parents: [Option<u16>; 3]) {
        if let Some(above) = parents[0] {
            self.superclasses.insert(class, above);
        }
        let mut each: Vec<u16> = parents.into_iter().flatten().collect();
        each.sort_unstable();
        each.dedup();
        if !each.is_empty() {
            self.parents.insert(class, each);
        }
    }

    /// The classes above one, the nearest first.
    fn above(&self, class: u16) -> Vec<u16> {
        let mut above = vec![class];
        let mut at = 0;
        while let Some(from) = above.get(at) {
            let parents = self.parents.get(from).into_iter().flatten();
            let new: Vec<u16> = parents.copied().filter(|parent| !above.contains(parent)).collect();
            above.extend(new);
            at += 1;
        }
        above.split_off(1)
    }

    /// One way up from a class: along superclasses, or along any parents.
    fn way(&self, rng: &mut Rng, lowest: u16) -> Vec<u16> {
        let along_any = rng.chance(40);
        let step = |class: &u16| match self.parents.get(class) {
            Some(parents) if along_any => Some(*rng.pick(parents)),
            _ => self.superclasses.get(class).copied(),
        };
        std::iter::successors(Some(lowest), step).collect()
    }

    /// A class, mostly one that has a superclass or an interface.
    fn lower(&self, rng: &mut Rng) -> u16 {
        let picked: Vec<u16> = (0..4).map(|_| *rng.pick(&self.classes)).collect();
        *picked.iter().find(|class| self.parents.contains_key(class)).unwrap_or(&picked[0])
    }

    /// A class where another is expected: above it, below it, itself, or any.
    fn expected(&self, rng: &mut Rng, class: u16) -> u16 {
        let above = self.above(class);
        match rng.below(20) {
            0..=3 if !above.is_empty() => above[0],
            4..=9 if !above.is_empty() => *rng.pick(&above),
            10 if !above.is_empty() => above[above.len() - 1],
            11..=13 => {
                let below: Vec<u16> =
                    self.classes.iter().copied().filter(|c| self.above(*c).contains(&class)).collect();
                *rng.pick(if below.is_empty() { &self.classes } else { &below })
            }
            14 | 15 => class,
            _ => *rng.pick(&self.classes),
        }
    }

    fn shape(&self, rng: &mut Rng) -> Shape {
        if !self.sources.is_empty() && rng.chance(35) {
            return rng.pick(&self.sources).0;
        }
        let wrap = match rng.below(100) {
            0..=34 => 0,
            35 => DEEP,
            _ => rng.below(DEEP),
        };
        Shape { wrap, class: self.lower(rng) }
    }

    /// A shape that a type of another may go to.
    fn target(&self, rng: &mut Rng, from: Shape) -> Shape {
        let class = self.expected(rng, from.class);
        let fitting: Vec<usize> = GOES.iter().filter(|(left, _)| *left == from.wrap).map(|(_, right)| *right).collect();
        let wrap = if rng.chance(12) || fitting.is_empty() { rng.below(DEEP) } else { *rng.pick(&fitting) };
        Shape { wrap, class }
    }

    /// The parameter of an overload where an argument of this shape is passed.
    fn parameter(&self, rng: &mut Rng, from: Shape) -> Bytes {
        match rng.below(20) {
            0 => vec![ANY],
            1 => vec![INT],
            2 | 3 => from.ty(),
            4 if from.wrap != DEEP => nullable(&from.ty()),
            5 => self.shape(rng).ty(),
            _ => self.target(rng, from).ty(),
        }
    }

    fn result(&self, rng: &mut Rng) -> Bytes {
        if rng.chance(50) {
            return vec![rng.below(12) as u8];
        }
        let shape = self.shape(rng);
        shape.ty()
    }

    /// Fields and functions without parameters that have a shape's type. Some fields have a visibility; one class has
    /// most of them.
    fn add_sources(&mut self, rng: &mut Rng, owner: u16) {
        let mut fields = HashSet::new();
        for i in 0..1 + rng.below(7) {
            let shape = self.shape(rng);
            let owner = if rng.chance(70) { owner } else { self.lower(rng) };
            let name = *rng.pick(&FIELDS);
            if i % 2 == 1 {
                self.table.plain(6 + i as u16, &shape.ty(), &[]);
                self.sources.push((shape, call(6 + i as u16, &[])));
            } else if fields.insert((owner, name)) {
                self.table.field(owner, name, &shape.ty());
                self.sources.push((shape, member(name, &leaf(&named(owner)))));
                if rng.chance(70) {
                    self.table.visibility(owner, name, *rng.pick(&[1, 1, 1, 1, 0, 2, 3]));
                    self.guarded.push((owner, name));
                }
            }
        }
    }

    /// A list whose overloads are made for the same arguments.
    fn add_list(&mut self, rng: &mut Rng, owner: u16, name: u16) {
        let count = *rng.pick(&[1, 1, 1, 1, 1, 1, 1, 2, 2, 2, 3, 16]);
        let alike = rng.chance(30);
        let mut args: Vec<Shape> = (0..count).map(|_| self.shape(rng)).collect();
        if alike {
            args = vec![args[0]; count];
        }
        let mut params = PARAMS.to_vec();
        let start = rng.below(params.len());
        params.rotate_left(start);
        params.truncate(count);
        let builtin = if rng.chance(15) { 50 } else { 0 };
        for _ in 0..1 + rng.below(if count == 16 { 2 } else { 5 }) {
            let same = self.parameter(rng, args[0]);
            let row: Vec<Param> = (0..count)
                .map(|i| {
                    let ty = if alike { same.clone() } else { self.parameter(rng, args[i]) };
                    let last = i + 1 == count;
                    let flag = match rng.below(40) {
                        0 => DEFAULT,
                        1 if last => VARARG,
                        _ => 0,
                    };
                    (params[i], flag, ty)
                })
                .collect();
            let visibility = *rng.pick(&[0, 0, 1, 1, 1, 2, 3]);
            let result = self.result(rng);
            self.table.function(owner, name, visibility, rng.chance(builtin), &result, &row);
        }
        if rng.chance(4) {
            self.table.suspend(owner, name);
        }
        self.lists.push(List { owner, name, params, args });
    }

    /// Operator sets along a way up from some classes, with gaps, and methods for them.
    fn operator_sets(&mut self, rng: &mut Rng) {
        let mut seen = HashSet::new();
        for _ in 0..1 + rng.below(3) {
            let lowest = self.lower(rng);
            let op = rng.below(11);
            self.climbs.push((lowest, op as u8));
            let way = self.way(rng, lowest);
            let last = rng.below(way.len().min(6));
            for (steps, class) in way.into_iter().enumerate().take(last + 1) {
                if rng.chance(8) || !seen.insert(class) {
                    continue;
                }
                let others = (rng.next() & rng.next()) as u16 & 0x7ff;
                let bit = 1 << op;
                self.table.operators(class, if steps == last { others | bit } else { others & !bit });
                if rng.chance(70) {
                    let result = self.result(rng);
                    self.table.function(class, 6 + op as u16, 0, false, &result, &[]);
                }
            }
        }
    }
}

// The question.

impl Family {
    /// An expression of a shape's type.
    fn value(&self, rng: &mut Rng, shape: Shape) -> Bytes {
        let same = |(other, _): &&(Shape, Bytes)| other.wrap == shape.wrap && other.class == shape.class;
        match self.sources.iter().find(same) {
            Some((_, source)) if rng.chance(60) => source.clone(),
            _ => leaf(&shape.ty()),
        }
    }

    fn arguments(&self, rng: &mut Rng, list: &List) -> Vec<Bytes> {
        let naming = if list.args.len() > 1 { *rng.pick(&[0, 70, 100, 100]) } else { *rng.pick(&[0, 0, 50]) };
        let mut args: Vec<Bytes> = Vec::new();
        for (shape, param) in list.args.iter().zip(&list.params) {
            let shape = match rng.below(20) {
                0 => Shape { class: *rng.pick(&self.classes), ..*shape },
                1 => self.shape(rng),
                _ => *shape,
            };
            let value = self.value(rng, shape);
            args.push(if rng.chance(naming) { named_arg(*param, &value) } else { value });
        }
        if rng.chance(4) {
            args.pop();
        }
        args
    }

    fn call(&self, rng: &mut Rng) -> Bytes {
        let list = rng.pick(&self.lists);
        let args = self.arguments(rng, list);
        if list.owner == NONE {
            return call(list.name, &args);
        }
        let owner = named(list.owner);
        let object = leaf(&if rng.chance(10) { nullable(&owner) } else { owner });
        method(list.name, &object, &args)
    }

    /// Two expressions of which one may go where the other is expected.
    fn two(&self, rng: &mut Rng) -> (Bytes, Bytes) {
        let from = self.shape(rng);
        let to = self.target(rng, from);
        let (left, right) = (self.value(rng, from), self.value(rng, to));
        if rng.chance(50) {
            (left, right)
        } else {
            (right, left)
        }
    }

    fn part(&self, rng: &mut Rng) -> Bytes {
        match rng.below(20) {
            0..=8 => self.call(rng),
            9..=12 => {
                let (left, right) = self.two(rng);
                binary(EQ + rng.below(2) as u8, &left, &right)
            }
            13 => {
                let (left, right) = self.two(rng);
                binary(LT + rng.below(4) as u8, &left, &right)
            }
            14..=16 if !self.guarded.is_empty() => {
                let (owner, name) = *rng.pick(&self.guarded);
                member(name, &leaf(&named(owner)))
            }
            _ => {
                let (left, op) = *rng.pick(&self.climbs);
                let op = if rng.chance(80) { op } else { rng.below(11) as u8 };
                let right = self.shape(rng).ty();
                binary(op, &leaf(&named(left)), &leaf(&right))
            }
        }
    }

    /// One part, or some joined by operators that ask their types.
    fn tree(&self, rng: &mut Rng) -> Bytes {
        let mut tree = self.part(rng);
        // A call with 16 arguments may have 50 nodes.
        let wide = self.lists.iter().any(|list| list.args.len() > 3);
        for _ in 0..if wide { 0 } else { *rng.pick(&[0, 0, 0, 1, 2]) } {
            let other = self.part(rng);
            tree = binary(*rng.pick(&[AND, AND + 1, EQ, TO, ASSIGN]), &tree, &other);
        }
        tree
    }

    /// The current type: mostly a class below one.
    fn current(&self, rng: &mut Rng, owner: u16) -> u16 {
        let below: Vec<u16> = self.classes.iter().copied().filter(|c| self.above(*c).contains(&owner)).collect();
        match rng.below(10) {
            0..=6 if !below.is_empty() => *rng.pick(&below),
            7 => *rng.pick(&self.classes),
            8 => owner,
            _ => NONE,
        }
    }
}

/// Some classes, and questions about them.
fn family(rng: &mut Rng) -> Pair {
    let mut family = Family::new(rng);
    let lowest = family.lower(rng);
    let owner = *rng.pick(&[vec![lowest], family.above(lowest), family.above(lowest)].concat());
    family.add_sources(rng, owner);
    for name in &FUNCTIONS[..1 + rng.below(2)] {
        family.add_list(rng, NONE, *name);
    }
    for name in &FUNCTIONS[..1 + rng.below(3)] {
        let owner = if rng.chance(75) { owner } else { *rng.pick(&family.classes) };
        family.add_list(rng, owner, *name);
    }
    family.operator_sets(rng);
    let tree = family.tree(rng);
    let package = if rng.chance(30) { PARAMS[0] } else { NONE };
    let current = family.current(rng, owner);
    (family.table.bytes(), question_in(current, package, rng.chance(50), &tree))
}

/// The ids of one chain in its order: rising, falling, or by steps.
fn chain_order(rng: &mut Rng, ids: &[u16]) -> Vec<u16> {
    let (n, step) = (ids.len(), *rng.pick(&[7, 101, 997]));
    match rng.below(3) {
        0 => ids.to_vec(),
        1 => ids.iter().rev().copied().collect(),
        // A prime: where it divides the length, the ids are taken as they are.
        _ if n % step == 0 => ids.to_vec(),
        _ => (0..n).map(|i| ids[i * step % n]).collect(),
    }
}

/// One of some classes, mostly one of the last three; none of none.
fn one_before(rng: &mut Rng, classes: &[u16]) -> u16 {
    match classes.len() {
        0 => NONE,
        n if rng.chance(70) => classes[n - 1 - rng.below(n.min(3))],
        n => classes[rng.below(n)],
    }
}

/// The classes of a table of one chain, the top first: its own names and the first built-in ones. Each has the one before it
/// as its superclass, as an interface, or now so, now so; some have other parents too. In some chains there is a gap.
fn chain_records(rng: &mut Rng, table: &mut Table, own: usize, built_in: usize) -> Vec<u16> {
    let names: Vec<u16> = (0..own).map(|i| table.name(&format!("C{}", i))).collect();
    let mut chain = chain_order(rng, &names);
    for name in 0..built_in as u16 {
        chain.insert(rng.below(chain.len() + 1), name);
    }
    let gap = if rng.chance(25) { rng.below(chain.len()) } else { 0 };
    // A name without a record.
    let top = if built_in < BUILT_IN.len() && rng.chance(30) { BUILT_IN.len() as u16 - 1 } else { NONE };
    let (in_types, others) = (*rng.pick(&[0, 50, 100]), *rng.pick(&[0, 0, 0, 40, 100]));
    let places: &[usize] = rng.pick::<&[usize]>(&[&[0], &[0], &[1], &[2], &[0, 1, 2]]);
    for (i, class) in chain.iter().enumerate() {
        let mut parents = [0; 3].map(|_| if rng.chance(others) { one_before(rng, &chain[..i]) } else { NONE });
        parents[*rng.pick(places)] = match i {
            0 => top,
            _ if i == gap => NONE,
            _ => chain[i - 1],
        };
        table.class_below(*class, parents, NONE, rng.chance(in_types));
    }
    if top != NONE {
        chain.insert(0, top);
    }
    chain
}

/// One chain of `own` classes and some built-in ones, functions that take classes of it, and a question that passes the
/// lowest one.
fn chain(rng: &mut Rng, own: usize, built_in: usize) -> (Table, Bytes) {
    let mut table = Table::new();
    let chain = chain_records(rng, &mut table, own, built_in);
    let (top, lowest) = (chain[0], chain[chain.len() - 1]);
    let some = |rng: &mut Rng| match rng.below(4) {
        0 | 1 => top,
        2 => lowest,
        _ => *rng.pick(&chain),
    };
    let wrap = |rng: &mut Rng, class: u16| WRAPS[if rng.chance(60) { 0 } else { rng.below(DEEP) }](&named(class));
    for i in 0..1 + rng.below(5) {
        let class = some(rng);
        let ty = wrap(rng, class);
        table.plain(FUNCTIONS[0], &[i as u8], &[(PARAMS[1], 0, ty)]);
    }
    table.function(top, FUNCTIONS[1], 1, false, &[STRING], &[]);
    let from = wrap(rng, lowest);
    let class = some(rng);
    let to = wrap(rng, class);
    let tree = match rng.below(4) {
        0 | 1 => call(FUNCTIONS[0], &[leaf(&from)]),
        2 => binary(EQ, &leaf(&from), &leaf(&to)),
        _ => method(FUNCTIONS[1], &leaf(&named(top)), &[]),
    };
    (table, question_in(*rng.pick(&[lowest, class, NONE]), NONE, false, &tree))
}

/// The longest chain of a table of so many bytes: a name and a class for its own names, a class for a built-in one, and room
/// for the functions.
fn longest_chain(rng: &mut Rng, len: usize) -> Pair {
    let built_in = *rng.pick(&[0, 3, BUILT_IN.len()]);
    let own = (len - CLASS * built_in - 180) / (NAME + CLASS);
    let (mut table, question) = chain(rng, own, built_in);
    let left = len - table.bytes().len();
    pad(&mut table, left);
    (table.bytes(), question)
}

/// Suspend functions of 5 bytes, and visibilities of 6 until these fit.
fn pad(table: &mut Table, left: usize) {
    for i in 0..left % 5 {
        table.visibility(0, i as u16, 0);
    }
    for i in 0..(left - 6 * (left % 5)) / 5 {
        table.suspend(0, i as u16);
    }
}

pub fn classes(rng: &mut Rng, index: u64) -> Pair {
    let (table, question) = match index % 256 {
        // Tables of 59,999 to 60,001 bytes.
        77 => {
            let len = 59_999 + rng.below(3);
            longest_chain(rng, len)
        }
        i if i % 32 == 5 => {
            let (own, built_in) = (50 + rng.below(350), rng.below(7));
            let (table, question) = chain(rng, own, built_in);
            (table.bytes(), question)
        }
        _ => family(rng),
    };
    if rng.chance(50) {
        return (without_parents(&table), question);
    }
    (table, question)
}
