//! Exhaustive sweeps, by index.

use super::classes::WRAPS;
use super::Profile;
use crate::bytes::*;
use crate::name::{BUILT_IN, NONE};
use std::sync::OnceLock;

type Pair = (Bytes, Bytes);

/// Names that the sweeps' table adds: 40 T (a type variable), 41 U (in `types`), 42 Page, 43 Scan, 44 f, 45 x.
fn small_table() -> Table {
    let mut table = Table::with_names(&["T", "U", "Page", "Scan", "f", "x"]);
    table.class(41, NONE, NONE, true);
    table.class(42, NONE, NONE, true);
    table.class(43, 42, NONE, true);
    table
}

/// At least 60 types: every kind, nested and not.
pub fn type_list() -> &'static [Bytes] {
    static LIST: OnceLock<Vec<Bytes>> = OnceLock::new();
    LIST.get_or_init(make_type_list)
}

fn make_type_list() -> Vec<Bytes> {
    let mut types: Vec<Bytes> = (0..12).map(|k| vec![k]).collect();
    types.push(vec![ERROR]);
    for k in [INT, LONG, DOUBLE, STRING, BOOLEAN, ANY, NOTHING, ERROR] {
        types.push(nullable(&[k]));
    }
    types.push(nullable(&nullable(&[INT])));
    types.push(nullable(&nullable(&[NOTHING])));
    for k in [INT, STRING, ANY, ERROR] {
        types.push(pointer(&[k]));
    }
    for k in [INT, LONG, STRING, ANY, NOTHING, ERROR] {
        types.push(list(&[k]));
        types.push(array(None, &[k]));
    }
    types.push(array(Some(3), &[INT]));
    types.push(array(Some(4), &[INT]));
    types.push(array(None, &list(&[INT])));
    types.push(list(&list(&[INT])));
    types.push(nullable(&list(&[INT])));
    types.push(list(&nullable(&[INT])));
    types.push(map(&[STRING], &[INT]));
    types.push(map(&[STRING], &[STRING]));
    types.push(nullable(&map(&[INT], &[INT])));
    for id in [0, 1, 2, 3, 4, 5, 40, 41, 42, 43] {
        types.push(named(id));
    }
    types.push(nullable(&named(1)));
    types.push(nullable(&named(42)));
    types.push(nullable(&named(40)));
    types.push(array(None, &named(42)));
    types.push(function(&[], &[INT]));
    types.push(function(&[&[INT]], &[INT]));
    types.push(function(&[&[INT], &[STRING]], &[UNIT]));
    types.push(type_var(0));
    types.push(type_var(1));
    types.push(module(42));
    types.push(nullable(&module(0)));
    types.push(pointer(&named(42)));
    types
}

fn short_bytes(at: usize) -> Bytes {
    match at {
        0 => vec![],
        1..=256 => vec![(at - 1) as u8],
        _ => vec![((at - 257) / 256) as u8, ((at - 257) % 256) as u8],
    }
}

const SHORTS: usize = 1 + 256 + 65_536;

pub fn short_count() -> usize {
    3 * SHORTS
}

/// Tables, questions and trees of up to 2 bytes.
pub fn short(at: usize) -> Pair {
    let bytes = short_bytes(at % SHORTS);
    match at / SHORTS {
        0 => (bytes, question(&leaf(&[INT]))),
        1 => (vec![], bytes),
        _ => (vec![], question(&bytes)),
    }
}

/// The case at a place of a sweep that is gone through twice: with its tables as they are, then without superclasses, where
/// the Rust is a yardstick.
fn in_two_rounds(at: usize, once: usize, case: fn(usize) -> Pair) -> Pair {
    let (table, question) = case(at % once);
    if at < once {
        (table, question)
    } else {
        (without_parents(&table), question)
    }
}

/// Leaves of the type list, calls without arguments of every name, and every kind byte.
pub fn one_node_count() -> usize {
    2 * one_node_once()
}

fn one_node_once() -> usize {
    type_list().len() + BUILT_IN.len() + 7 + 256
}

pub fn one_node(at: usize) -> Pair {
    in_two_rounds(at, one_node_once(), one_of_one_node)
}

fn one_of_one_node(at: usize) -> Pair {
    let mut table = small_table();
    table.plain(44, &[INT], &[]);
    table.plain(45, &[INT], &[(44, DEFAULT, vec![INT])]);
    table.plain(45, &[INT], &[(44, VARARG, vec![INT])]);
    let types = type_list();
    let calls = BUILT_IN.len() + 7;
    let tree = if at < types.len() {
        leaf(&types[at])
    } else if at < types.len() + calls {
        call((at - types.len()) as u16, &[])
    } else {
        vec![(at - types.len() - calls) as u8, 0, 0, 0]
    };
    (table.bytes(), question(&tree))
}

pub fn pairs_count() -> usize {
    2 * pairs_once()
}

fn pairs_once() -> usize {
    let n = type_list().len();
    23 * n * n
}

/// Every operator with every pair of the type list.
pub fn pairs(at: usize) -> Pair {
    in_two_rounds(at, pairs_once(), one_of_pairs)
}

fn one_of_pairs(at: usize) -> Pair {
    let types = type_list();
    let n = types.len();
    let op = (at % 23) as u8;
    let (left, right) = (&types[at / 23 / n % n], &types[at / 23 % n]);
    let mut table = small_table();
    table.operators(43, 0x21);
    table.function(43, 6, 0, false, &[LONG], &[]);
    (table.bytes(), question(&binary(op, &leaf(left), &leaf(right))))
}

pub fn singles_count() -> usize {
    2 * singles_once()
}

fn singles_once() -> usize {
    (7 + BUILT_IN.len() + 6) * type_list().len() * 2
}

/// Unary operators; members; and the same names as methods.
pub fn singles(at: usize) -> Pair {
    in_two_rounds(at, singles_once(), one_of_singles)
}

fn one_of_singles(at: usize) -> Pair {
    let types = type_list();
    let ty = &types[at / 2 % types.len()];
    let what = at / 2 / types.len();
    let mut table = small_table();
    table.function(42, 45, 0, false, &[LONG], &[]);
    table.function(43, 22, 3, false, &[STRING], &[(45, 0, vec![INT])]);
    table.field(42, 22, &[DOUBLE]);
    table.visibility(42, 22, 3);
    table.visibility(43, 20, 1);
    table.variant(42, 20);
    table.field(41, 17, &[CHAR]);
    let tree = match (what, at % 2) {
        (0..=6, 0) => unary(what as u8, &leaf(ty)),
        (0..=6, _) => unary(what as u8, &unary(ADDR_OF, &leaf(ty))),
        (_, 0) => member((what - 7) as u16, &leaf(ty)),
        _ => method((what - 7) as u16, &leaf(ty), &[leaf(ty)]),
    };
    (table.bytes(), question(&tree))
}

pub fn assign_count() -> usize {
    2 * assign_once()
}

fn assign_once() -> usize {
    let n = type_list().len();
    2 * n * n
}

/// Whether a type goes where another is expected, by a call with one parameter: alone (17 or none),
/// and beside an overload whose parameter has the argument's own type (which score is higher).
pub fn assign(at: usize) -> Pair {
    in_two_rounds(at, assign_once(), one_of_assign)
}

fn one_of_assign(at: usize) -> Pair {
    let types = type_list();
    let n = types.len();
    let (from, to) = (&types[at / 2 / n % n], &types[at / 2 % n]);
    let mut table = small_table();
    let allowed = |ty: &[u8]| !ty.contains(&ERROR) || ty[0] == 17 || ty[0] == 20;
    let to = if allowed(to) { to.clone() } else { vec![UNIT] };
    table.plain(44, &[STRING], &[(45, 0, to)]);
    if at % 2 == 1 {
        table.plain(44, &[DOUBLE], &[(45, 0, vec![CHAR])]);
    }
    (table.bytes(), question(&call(44, &[leaf(from)])))
}

/// The inputs that `flips` changes byte by byte.
fn flip_inputs() -> Vec<Pair> {
    let mut table = Table::new();
    let c = table.name("C");
    let d = table.name("D");
    let f = table.name("f");
    table.class(c, NONE, NONE, true);
    table.class_below(d, [c, f, NONE], f, true);
    table.operators(d, 3);
    table.function(NONE, f, 0, false, &[INT], &[(c, 1, vec![INT]), (d, 2, list(&named(c)))]);
    table.function(d, f, 3, true, &[STRING], &[]);
    table.field(c, f, &array(Some(2), &[INT]));
    table.visibility(c, f, 3);
    table.suspend(NONE, f);
    table.variant(d, c);
    let tree = call(
        f,
        &[
            named_arg(c, &unary(MINUS, &leaf(&[INT]))),
            binary(ADD, &leaf(&named(d)), &member(f, &leaf(&named(c)))),
            method(f, &leaf(&named(d)), &[]),
        ],
    );
    let (table, asked) = (table.bytes(), question_in(c, f, false, &tree));
    let flat = without_parents(&table);
    vec![
        (table, asked.clone()),
        (vec![], question(&binary(SUB, &leaf(&function(&[&[INT]], &type_var(3))), &leaf(&map(&[INT], &[ANY]))))),
        (flat, asked),
    ]
}

pub fn flips_count() -> usize {
    flip_inputs().iter().map(|(t, q)| 256 * (t.len() + q.len())).sum()
}

pub fn flips(at: usize) -> Pair {
    let mut at = at;
    for (mut table, mut question) in flip_inputs() {
        let all = 256 * (table.len() + question.len());
        if at < all {
            let (place, value) = (at / 256, (at % 256) as u8);
            if place < table.len() {
                table[place] = value;
            } else {
                question[place - table.len()] = value;
            }
            return (table, question);
        }
        at -= all;
    }
    unreachable!("{:?} has no such case", Profile::Flips)
}

/// The names of the sweep over wrappings: 40 A below 41 B below 42 C; 43 D with a record of its own; 44 E below 45 N, which
/// has none; 46 T below B, outside `types`; List below C; Set below List.
fn class_table() -> Table {
    let mut table = Table::with_names(&["Aa", "Bb", "Cc", "Dd", "Ee", "Nn", "T", "f", "x"]);
    table.class(42, NONE, NONE, true);
    table.class(41, 42, NONE, false);
    table.class(40, 41, NONE, true);
    table.class(43, NONE, NONE, true);
    table.class(44, 45, NONE, true);
    table.class(46, 41, NONE, false);
    table.class(1, 42, NONE, true);
    table.class(5, 1, NONE, true);
    table
}

const BELOW_CLASSES: [u16; 9] = [40, 41, 42, 43, 44, 45, 46, 1, 5];

/// The classes in every wrapping.
fn below_types() -> &'static [Bytes] {
    static LIST: OnceLock<Vec<Bytes>> = OnceLock::new();
    LIST.get_or_init(|| WRAPS.iter().flat_map(|wrap| BELOW_CLASSES.map(|class| wrap(&named(class)))).collect())
}

pub fn below_count() -> usize {
    2 * below_once()
}

fn below_once() -> usize {
    2 * below_types().len() * below_types().len()
}

/// A type where another is expected: by a call whose second overload takes everything, which then ties or is beaten, and
/// by a comparison.
pub fn below(at: usize) -> Pair {
    in_two_rounds(at, below_once(), one_of_below)
}

fn one_of_below(at: usize) -> Pair {
    let types = below_types();
    let (from, to) = (&types[at / 2 / types.len()], &types[at / 2 % types.len()]);
    let mut table = class_table();
    if at % 2 == 1 {
        return (table.bytes(), question(&binary(EQ, &leaf(from), &leaf(to))));
    }
    table.plain(47, &[STRING], &[(48, 0, to.clone())]);
    table.plain(47, &[DOUBLE], &[(48, 0, vec![ANY])]);
    (table.bytes(), question(&call(47, &[leaf(from)])))
}
