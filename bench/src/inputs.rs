//! The inputs: tables by make and size, questions by node count and depth, inputs that are refused.

use crate::arrays::Arrays;
use crate::classes::Family;
use crate::collide;
use crate::overloads::List;
use aura_judge::raw::LOAD_LONGEST;
use reading::bytes::*;
use reading::name::{BUILT_IN, NONE};
use reading::rng::Rng;
use reading::words::load::load;
use reading::words::table::split;

/// What a table is made of.
#[derive(Debug, Clone, Copy, PartialEq, Eq)]
pub enum Make {
    Nothing,
    Names,
    Fields,
    /// Functions in lists of hundreds of overloads.
    Many,
    /// Functions in lists of two.
    Few,
    /// Names that all have one bucket.
    BucketNames,
    /// Names of one bucket that agree in their first digits.
    DeepNames,
    /// Fields, visibilities, suspend functions and variants whose owners and names share few buckets.
    BucketFields,
    /// Classes of all names, each with one superclass, which has no record.
    Classes,
    /// Functions that all have one bucket; questions call the last.
    BucketFunctions,
    /// Classes by their parents, and what is asked of them.
    Family(Family),
    /// One list of overloads, for calls with several arguments.
    Overloads(List),
    /// Types of Arrays in each other.
    Arrays(Arrays),
}

impl Make {
    pub fn words(self) -> &'static str {
        match self {
            Make::Nothing => "no table",
            Make::Names => "names",
            Make::Fields => "fields",
            Make::Many => "functions, many overloads",
            Make::Few => "functions, few overloads",
            Make::BucketNames => "names of one bucket",
            Make::DeepNames => "names of one bucket and the same first digits",
            Make::BucketFields => "fields of few buckets",
            Make::Classes => "classes, superclass without a record",
            Make::BucketFunctions => "functions of one bucket",
            Make::Family(family) => family.words(),
            Make::Overloads(list) => list.words(),
            Make::Arrays(arrays) => arrays.place.words(),
        }
    }

    /// Whether a class has a superclass, so that the Rust is no yardstick (document 02, order 2: "Runs beside the Rust use
    /// tables without superclasses").
    pub fn has_superclasses(self) -> bool {
        match self {
            Make::Classes => true,
            Make::Family(family) => family.has_superclasses(),
            _ => false,
        }
    }
}

pub const MAKES: [Make; 4] = [Make::Names, Make::Fields, Make::Many, Make::Few];
/// Those with keys that are chosen against the index.
pub const CHOSEN: [Make; 5] =
    [Make::BucketNames, Make::DeepNames, Make::BucketFields, Make::Classes, Make::BucketFunctions];
pub const SIZES: [usize; 3] = [2048, 16_384, 60_000];
/// Each twice the one before.
pub const DOUBLED: [usize; 6] = [1875, 3750, 7500, 15_000, 30_000, 60_000];
/// The bytes of the tables that take turns where growth is measured.
pub const TURN: usize = 240_000;

/// The first name of a table: the class and the function that questions use.
pub const FIRST: u16 = BUILT_IN.len() as u16;
/// The bytes of a function with one parameter and types of one byte.
const CALLED: usize = 13;
/// Where a `Table` has its records of kind 2.
const CLASSES: usize = 1;

/// A table that grows while it has room.
pub struct Filler {
    table: Table,
    left: usize,
}

impl Filler {
    fn new(size: usize) -> Filler {
        Filler { table: Table::new(), left: size }
    }

    /// Keeps so many bytes free, or gives them back.
    pub fn keep(&mut self, bytes: usize) {
        self.left -= bytes;
    }

    pub fn give(&mut self, bytes: usize) {
        self.left += bytes;
    }

    /// Adds what `add` adds, if there is room.
    pub fn put(&mut self, add: impl Fn(&mut Table)) -> bool {
        let mut alone = Table::new();
        add(&mut alone);
        let len = alone.bytes().len();
        if self.left < len {
            return false;
        }
        self.left -= len;
        add(&mut self.table);
        true
    }

    pub fn names(&mut self, count: usize) -> u16 {
        self.spelled(&page_names(count))
    }

    fn spelled(&mut self, names: &[String]) -> u16 {
        for name in names {
            self.put(|t| {
                t.name(name);
            });
        }
        FIRST + names.len() as u16
    }
}

fn page_names(count: usize) -> Vec<String> {
    (0..count).map(|i| format!("pageName{i}")).collect()
}

/// A table of at most `size` bytes; less than one record stays free.
pub fn table(make: Make, size: usize) -> Vec<u8> {
    records(make, size).bytes()
}

fn records(make: Make, size: usize) -> Table {
    let mut f = Filler::new(size);
    match make {
        Make::Nothing => {}
        Make::Names => {
            f.names(size / NAME);
        }
        Make::Fields => fields(&mut f, size),
        Make::Many => many(&mut f),
        Make::Few => few(&mut f),
        Make::BucketNames => {
            f.spelled(&collide::bucket_names(size / NAME));
        }
        Make::DeepNames => {
            f.spelled(&collide::deep_names(size / NAME));
        }
        Make::BucketFields => bucket_fields(&mut f, size),
        Make::Classes => classes(&mut f, &page_names(named_classes(size))),
        Make::BucketFunctions => bucket_functions(&mut f, size),
        Make::Family(family) => family.fill(&mut f, size),
        Make::Overloads(list) => list.fill(&mut f),
        Make::Arrays(arrays) => arrays.fill(&mut f),
    }
    f.table
}

pub fn shuffle<T>(items: &mut [T], rng: &mut Rng) {
    for i in (1..items.len()).rev() {
        items.swap(i, rng.below(i + 1));
    }
}

/// The same records in a random order within each kind. The last one stays, since questions may ask for it, and so do
/// classes whose parents have to come first. Ids mean names by place, so that other names stand for them.
fn shuffled(mut table: Table, make: Make, rng: &mut Rng) -> Vec<u8> {
    let last = table.records.iter_mut().rev().find_map(Vec::pop);
    for (place, records) in table.records.iter_mut().enumerate() {
        if !matches!(make, Make::Family(_)) || place != CLASSES {
            shuffle(records, rng);
        }
    }
    [table.bytes(), last.unwrap_or_default()].concat()
}

fn some_type(i: usize, ids: u16) -> Bytes {
    match i % 5 {
        0 => vec![INT],
        1 => vec![STRING],
        2 => list(&[DOUBLE]),
        3 => nullable(&named(i as u16 % ids)),
        _ => map(&[STRING], &[BOOLEAN]),
    }
}

/// The field that questions ask for is the last.
fn fields(f: &mut Filler, size: usize) {
    const ASKED: usize = 6;
    let ids = f.names((size / 1000).max(2));
    f.keep(ASKED);
    for i in 0.. {
        let (owner, name) = ((i / ids as usize) as u16, (i % ids as usize) as u16);
        let asked = owner == FIRST && name == FIRST;
        if owner >= ids || (!asked && !f.put(|t| t.field(owner, name, &some_type(i, ids)))) {
            break;
        }
    }
    f.give(ASKED);
    f.put(|t| t.field(FIRST, FIRST, &[INT]));
}

/// Overload i of a list: an odd one takes an Int, so that a call chooses it; an even one fits in number and takes a name.
fn function(t: &mut Table, owner: u16, name: u16, i: usize, ids: u16) {
    if i % 2 == 1 {
        t.function(owner, name, 0, false, &[INT], &[(20, 0, vec![INT])]);
    } else {
        let other = named(i as u16 / 2 % ids);
        t.function(owner, name, 0, false, &other, &[(20, 0, other.clone()), (21, DEFAULT, list(&[INT]))]);
    }
}

fn many(f: &mut Filler) {
    let ids = f.names(8);
    for i in 0.. {
        // One overload with an Int in each list; the others take names.
        let name = FIRST + (i % 8) as u16;
        let step = if i / 8 == 1 { 1 } else { 2 * (i / 8) };
        if !f.put(|t| function(t, NONE, name, step, ids)) {
            break;
        }
    }
}

fn few(f: &mut Filler) {
    let ids = f.names(16);
    for i in 0.. {
        // Without an owner first, from the name that questions call on.
        let key = i / 2;
        let owner = match key / ids as usize {
            0 => NONE,
            n => n as u16 - 1,
        };
        let name = ((key + FIRST as usize) % ids as usize) as u16;
        if owner == ids || !f.put(|t| function(t, owner, name, i, ids)) {
            break;
        }
    }
}

/// Half of the bytes are names; the rest are records of kinds 5 to 8 from the fullest buckets on.
fn bucket_fields(f: &mut Filler, size: usize) {
    let ids = f.names(size / 2 / NAME);
    for (owner, name) in collide::pairs(ids, size) {
        let done = !f.put(|t| {
            t.field(owner, name, &[INT]);
            t.visibility(owner, name, 0);
            t.suspend(owner, name);
            t.variant(owner, name);
        });
        if done {
            break;
        }
    }
}

/// How many names there are in a table in which each is a class, and so is each built-in name but one.
fn named_classes(size: usize) -> usize {
    (size - CLASS * (BUILT_IN.len() - 1)) / (NAME + CLASS)
}

/// Every name is a class, but for the first built-in one, which is the superclass of all.
fn classes(f: &mut Filler, names: &[String]) {
    let ids = f.spelled(names);
    for class in 1..ids {
        f.put(|t| t.class(class, 0, NONE, true));
    }
}

/// Half of the bytes are names; the rest are functions, and the one that questions call is the last.
fn bucket_functions(f: &mut Filler, size: usize) {
    let called = |t: &mut Table| t.plain(FIRST, &[INT], &[(20, 0, vec![INT])]);
    let ids = f.names(size / 2 / NAME);
    f.keep(CALLED);
    for (owner, name) in collide::listed_with(NONE, FIRST, ids).into_iter().cycle() {
        if !f.put(|t| t.function(owner, name, 0, false, &[INT], &[])) {
            break;
        }
    }
    f.give(CALLED);
    f.put(called);
}

/// How many classes and functions a table has.
pub fn counts(table: &[u8]) -> (usize, usize) {
    let records = split(table);
    let count = |kind: u8| records.iter().filter(|record| record[0] == kind).count();
    (count(2), count(4))
}

/// What a question asks for under a table: two nodes.
fn unit(make: Make) -> Bytes {
    match make {
        Make::Fields => member(FIRST, &leaf(&named(FIRST))),
        Make::Many | Make::Few | Make::BucketFunctions => call(FIRST, &[leaf(&[INT])]),
        _ => unary(MINUS, &leaf(&[INT])),
    }
}

fn tree(nodes: usize, make: Make) -> Bytes {
    match nodes {
        1 => leaf(&[INT]),
        2 => unit(make),
        3 => binary(ADD, &leaf(&[INT]), &leaf(&[INT])),
        n => binary(ADD, &tree(n - 3, make), &unit(make)),
    }
}

/// A question of this many nodes that uses what the table has.
pub fn nodes(count: usize, make: Make) -> Vec<u8> {
    question(&tree(count, make))
}

/// Calls in calls: of the table's function where it has functions, else method calls on an Any.
pub fn nested(depth: usize, make: Make) -> Vec<u8> {
    let mut tree = leaf(&[INT]);
    for _ in 0..depth {
        tree = match make {
            Make::Many | Make::Few => call(FIRST, &[tree]),
            _ => method(20, &tree, &[]),
        };
    }
    question(&tree)
}

/// One timed input.
pub struct Input {
    pub make: Make,
    /// What the question is.
    pub asked: String,
    pub table: Vec<u8>,
    /// The table as the library reads it.
    pub handed: Vec<u8>,
    pub question: Vec<u8>,
    /// Whether the Rust is a yardstick.
    pub rust: bool,
}

impl Input {
    pub fn new(make: Make, asked: String, table: Vec<u8>, question: Vec<u8>) -> Input {
        let handed = library_form(&table);
        Input { make, asked, table, handed, question, rust: !make.has_superclasses() }
    }
}

/// A table as the library reads it: one from before order 6 has class records without interfaces.
pub fn library_form(table: &[u8]) -> Vec<u8> {
    match cfg!(feature = "interface") {
        true => table.to_vec(),
        false => older(table).expect("no class has an interface"),
    }
}

/// As many tables of one make and size as have `TURN` bytes together, with the same records in other orders.
pub fn reordered(make: Make, size: usize) -> impl Iterator<Item = Vec<u8>> {
    let records = records(make, size);
    let mut rng = Rng::new(1, 2, 5);
    (0..TURN / size).map(move |_| shuffled(records.clone(), make, &mut rng))
}

/// A question of 8 nodes with tables that take turns.
pub fn turn(make: Make, size: usize) -> Vec<Input> {
    let input = |table| Input::new(make, "8 nodes".to_string(), table, nodes(8, make));
    reordered(make, size).map(input).collect()
}

fn nodes_in_words(count: usize) -> String {
    format!("{} node{}", count, if count == 1 { "" } else { "s" })
}

/// The start number of the load's questions.
const START: u32 = 1;

/// Questions of the test load without a table, as the second reading writes them.
fn loads() -> impl Iterator<Item = Input> {
    let input = |count: usize| {
        let question = load(START, count, LOAD_LONGEST).expect("1 to 64 nodes fit");
        Input::new(Make::Nothing, format!("load of {}", nodes_in_words(count)), Vec::new(), question)
    };
    [1, 8, 32, 64].into_iter().map(input)
}

/// Every table with every question, and the load's questions.
pub fn all() -> Vec<Input> {
    let mut tables = vec![(Make::Nothing, 0)];
    for make in MAKES {
        tables.extend(SIZES.map(|size| (make, size)));
    }
    let mut inputs = Vec::new();
    for (make, size) in tables {
        let table = table(make, size);
        let mut add = |asked: String, question| inputs.push(Input::new(make, asked, table.clone(), question));
        for count in [1, 8, 32, 64] {
            add(nodes_in_words(count), nodes(count, make));
        }
        for depth in [1, 30] {
            add(format!("calls {} deep", depth), nested(depth, make));
        }
    }
    inputs.extend(loads());
    inputs
}

/// One input that is refused.
pub struct Refused {
    pub what: &'static str,
    pub number: u8,
    pub table: Vec<u8>,
    pub question: Vec<u8>,
}

impl Refused {
    /// The bytes that may have to be read.
    pub fn bytes(&self) -> usize {
        self.table.len() + self.question.len()
    }
}

pub fn refused() -> Vec<Refused> {
    let int = nodes(1, Make::Nothing);
    let mut all = Vec::new();
    let mut add = |number, what, table: Vec<u8>, question: Vec<u8>| all.push(Refused { what, number, table, question });

    add(1, "60,001 bytes of table", vec![1; 60_001], int.clone());
    add(2, "a malformed record behind 60,000 bytes of names, less one", tail(Make::Names, &[9]), int.clone());
    let mut rng = Rng::new(1, 1, 1);
    add(2, "60,000 random bytes", (0..60_000).map(|_| rng.byte()).collect(), int.clone());
    add(3, "a name behind fields", tail(Make::Fields, &[&[1, 1, 65][..], &[0; 23]].concat()), int.clone());
    add(4, "an undefined id behind functions", tail(Make::Few, &[7, 255, 255, 255, 255]), int.clone());
    add(5, "a repeated name behind names", tail(Make::Names, &name_again("pageName0")), int.clone());
    add(
        5,
        "a repeated name behind names of one bucket and the same first digits",
        tail(Make::DeepNames, &name_again(&collide::deep_names(1)[0])),
        int.clone(),
    );
    add(5, "a repeated field behind fields", tail(Make::Fields, &[5, 0, 0, 0, 0, 0]), int.clone());
    let behind = library_form(&tail(Make::Names, &superclass_behind()));
    add(6, "a superclass behind its class, behind names", behind, int.clone());
    add(7, "Error in a type, behind fields of 192-byte types", wide_fields(), int.clone());
    add(8, "16,385 bytes of question", vec![], vec![0; 16_385]);
    add(8, "no question, behind 60,000 bytes of names", table(Make::Names, 60_000), vec![]);
    add(8, "a cut leaf behind 59 leaves with 192-byte types", vec![], wide_leaves(&[12]));
    add(9, "a 65th node", vec![], question(&[[2, 0].repeat(64), vec![0, 0]].concat()));
    add(10, "an undefined id behind 59 leaves with 192-byte types", vec![], wide_leaves(&[17, 40, 0]));
    add(11, "a type without end behind 59 leaves with 192-byte types", vec![], wide_leaves(&[12; 192]));
    all
}

/// A table of 60,000 bytes at most that ends with these.
fn tail(make: Make, end: &[u8]) -> Vec<u8> {
    let mut bytes = table(make, 60_000 - end.len());
    bytes.extend_from_slice(end);
    bytes
}

fn name_again(name: &str) -> Vec<u8> {
    let mut t = Table::new();
    t.name(name);
    t.bytes()
}

fn superclass_behind() -> Vec<u8> {
    let mut t = Table::new();
    t.class(0, 1, NONE, false);
    t.class(1, NONE, NONE, false);
    t.bytes()
}

fn wide_fields() -> Vec<u8> {
    let wide = nullables(191, &[INT]);
    let mut t = Table::new();
    for i in 0..60_000 / 197 - 1 {
        t.field(i / 40, i % 40, &wide);
    }
    t.field(39, 39, &[ERROR]);
    t.bytes()
}

/// Four calls in each other with 59 leaves of 192-byte types, then a leaf with this type: 64 nodes.
fn wide_leaves(last: &[u8]) -> Vec<u8> {
    let wide = leaf(&nullables(191, &[INT]));
    let mut tree = Vec::new();
    let calls = [(16, 15), (16, 15), (16, 15), (15, 14)];
    for (count, leaves) in calls {
        tree.extend_from_slice(&[5, 20, 0, count]);
        tree.extend(wide.repeat(leaves));
    }
    tree.push(0);
    tree.extend_from_slice(last);
    question(&tree)
}

#[cfg(test)]
pub mod tests {
    use super::*;
    use crate::classes::FAMILIES;
    use crate::measure::BUFFER;
    use reading::words::{self, lent};

    /// What the words answer.
    pub fn answered(input: &Input) -> String {
        let mut buffer = [0; BUFFER];
        let a = lent::answer(&words::said(&input.table, &input.question), &mut buffer);
        format!("{:?}", (a.number, a.pass, a.len, a.count, a.ty, buffer))
    }

    /// The class and the superclass of each class record.
    fn superclasses(table: &[u8]) -> Vec<(u16, u16)> {
        let id = |record: &[u8], at: usize| u16::from_le_bytes([record[at], record[at + 1]]);
        split(table).into_iter().filter(|record| record[0] == 2).map(|record| (id(record, 1), id(record, 3))).collect()
    }

    #[test]
    fn superclasses_are_where_they_are_said_to_be() {
        let families = FAMILIES.map(Make::Family);
        for make in MAKES.into_iter().chain(CHOSEN).chain([Make::Nothing]).chain(families) {
            let found = superclasses(&table(make, 7500)).iter().any(|(_, above)| *above != NONE);
            assert_eq!(found, make.has_superclasses(), "{}", make.words());
        }
    }

    #[test]
    fn tables_of_a_turn_differ_in_the_order_of_their_records() {
        for make in MAKES.into_iter().chain(CHOSEN) {
            let plain = Input::new(make, String::new(), table(make, 7500), nodes(8, make));
            let mut records = split(&plain.table);
            let last = records[records.len() - 1];
            records.sort();
            let turn = turn(make, 7500);
            assert_eq!(turn.len(), 32);
            for (i, input) in turn.iter().enumerate() {
                let mut other = split(&input.table);
                assert_eq!(other[other.len() - 1], last);
                other.sort();
                assert_eq!(other, records);
                assert_eq!(answered(input), answered(&plain), "{}", make.words());
                assert!(turn[..i].iter().all(|before| before.table != input.table));
            }
        }
    }
}
