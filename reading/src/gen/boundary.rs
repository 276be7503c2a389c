//! Sizes and counts at their limits.

use crate::bytes::*;
use crate::name::NONE;
use crate::rng::Rng;

type Pair = (Bytes, Bytes);

/// How many shapes of boundary there are; the index goes round them.
pub const SHAPES: u64 = 30;

/// A type of exactly `len` bytes, `len` at least 1, or one that is cut there.
pub fn type_of_length(rng: &mut Rng, len: usize) -> Bytes {
    let mut bytes = Vec::new();
    while bytes.len() < len {
        let left = len - bytes.len();
        match rng.below(6) {
            // A wrapper with a body of its own.
            0 if left > 6 => bytes.extend(array(Some(rng.next() as u32 as u64), &[])),
            1 if left > 6 => bytes.extend(array(None, &[])),
            2 if left > 3 => bytes.extend([18, 0]),
            3 if left > 4 => bytes.extend([16, *rng.pick(&[INT, STRING])]),
            4 if left > 4 => bytes.extend([18, 1, INT]),
            _ if left == 1 => bytes.push(rng.below(12) as u8),
            _ if left == 3 && rng.chance(50) => bytes.extend(named(rng.below(40) as u16)),
            _ if left == 5 && rng.chance(50) => bytes.extend(type_var(rng.next() as u32)),
            _ => bytes.push(*rng.pick(&[12, 13, 15])),
        }
    }
    bytes
}

/// A type that runs on beyond 192 bytes, with something of interest near the end of the window.
fn long_type(rng: &mut Rng) -> Bytes {
    let place = 180 + rng.below(16);
    let mut bytes = vec![*rng.pick(&[12, 13, 15]); place];
    let tail: Bytes = match rng.below(10) {
        0 => vec![ERROR],
        1 => named(9_999),
        2 => module(9_999),
        3 => vec![22],
        4 => vec![14, 2, 0, 0, 0, 0],
        5 => vec![14, 0, 1, 0, 0, 0],
        6 => vec![18, 17],
        7 => named(*rng.pick(&[0, 39, 40])),
        8 => type_var(7),
        _ => vec![18, 16],
    };
    bytes.extend(tail);
    let more = rng.below(40);
    bytes.extend(vec![*rng.pick(&[12, 0, 22, 21]); more]);
    bytes
}

/// A table of exactly `len` bytes (at least 200) that is accepted but for its length: mostly names
/// (kind 1), fields (5) or suspend functions (7).
pub fn table_of_length(len: usize, kind: u8) -> Bytes {
    let mut table = Table::new();
    let names = if kind == 1 { len / 26 - 2 } else { 80.min(len / 26 - 2) };
    for i in 0..names {
        table.name(&format!("n{}", i));
    }
    let ids = 40 + names;
    let mut left = len - 26 * names;
    // Visibilities of 6 bytes until 5 divides the rest; then fields of 6 bytes and suspend functions of 5.
    for i in 0..left % 5 {
        table.visibility(0, i as u16, 0);
    }
    left -= 6 * (left % 5);
    let fields = if kind == 5 { left / 30 * 5 } else { 0 };
    for i in 0..fields {
        table.field((i / ids) as u16, (i % ids) as u16, &[INT]);
    }
    for i in 0..(left - 6 * fields) / 5 {
        table.suspend((i / ids) as u16, (i % ids) as u16);
    }
    table.bytes()
}

/// A tree of exactly `nodes` nodes.
fn tree_of(rng: &mut Rng, nodes: usize) -> Bytes {
    match nodes {
        1 => leaf(&[rng.below(12) as u8]),
        2 => unary(rng.below(7) as u8, &tree_of(rng, 1)),
        _ => match rng.below(5) {
            0 => unary(ADDR_OF, &tree_of(rng, nodes - 1)),
            1 => member(rng.below(40) as u16, &tree_of(rng, nodes - 1)),
            2 => named_arg(rng.below(40) as u16, &tree_of(rng, nodes - 1)),
            3 => {
                let count = (nodes - 2).min(1 + rng.below(16));
                let mut args: Vec<Bytes> = (1..count).map(|_| leaf(&[INT])).collect();
                args.push(tree_of(rng, nodes - count));
                call(rng.below(40) as u16, &args)
            }
            _ => {
                let left = 1 + rng.below(nodes - 2);
                binary(rng.below(23) as u8, &tree_of(rng, left), &tree_of(rng, nodes - 1 - left))
            }
        },
    }
}

/// `overloads` equal functions with a vararg, each of which fits any call.
fn fitting(overloads: usize, builtin: bool) -> (Table, u16) {
    let mut table = Table::new();
    let f = table.name("f");
    for _ in 0..overloads {
        table.function(NONE, f, 0, builtin, &[INT], &[(f, VARARG, vec![INT])]);
    }
    (table, f)
}

/// A case with exactly `count` diagnostics: unknown names over many overloads, then single ones.
pub fn diagnostics_case(count: usize) -> Pair {
    // 16 unknown names per overload, one "no match", and up to 15 complaints about the values.
    let overloads = ((count - 1) / 16).max(2);
    let single = count - 1 - 16 * overloads;
    let (table, f) = fitting(overloads, false);
    let value = |i: usize| if i < single { unary(MINUS, &leaf(&[STRING])) } else { leaf(&[INT]) };
    let args: Vec<Bytes> = (0..16).map(|i| named_arg(0, &value(i))).collect();
    (table.bytes(), question(&call(f, &args)))
}

/// The most diagnostics that a table and a question can yield this way.
pub fn most_diagnostics() -> Pair {
    let (table, f) = fitting((60_000 - 26) / 13, false);
    let row = |n: usize, first: Option<Bytes>| {
        let mut args: Vec<Bytes> = (0..n).map(|_| named_arg(0, &leaf(&[INT]))).collect();
        if let Some(inner) = first {
            args[0] = named_arg(0, &inner);
        }
        call(f, &args)
    };
    let inner = row(15, None);
    (table.bytes(), question(&row(16, Some(inner))))
}

fn in_table(rng: &mut Rng, ty: &[u8]) -> Bytes {
    let mut table = Table::new();
    let f = table.name("f");
    match rng.below(4) {
        0 => table.field(f, f, ty),
        1 => table.plain(f, ty, &[]),
        2 => table.plain(f, &[INT], &[(f, 0, ty.to_vec())]),
        _ => table.plain(f, &[INT], &[(0, 0, vec![INT]), (*rng.pick(&[0, 1]), 0, ty.to_vec())]),
    }
    if rng.chance(50) {
        table.suspend(NONE, f);
    }
    table.bytes()
}

fn in_leaf_or_table(rng: &mut Rng, ty: &[u8]) -> Pair {
    if rng.chance(50) {
        return (Vec::new(), question(&leaf(ty)));
    }
    (in_table(rng, ty), question(&leaf(&[INT])))
}

pub fn boundary(rng: &mut Rng, index: u64) -> Pair {
    let no_table = Vec::new();
    let plain = question(&leaf(&[INT]));
    match index % SHAPES {
        // Types of 190 to 194 bytes in a leaf, whole or cut.
        0 => {
            let len = 190 + rng.below(5);
            (no_table, question(&leaf(&type_of_length(rng, len))))
        }
        1 => {
            let len = 190 + rng.below(4);
            (no_table, question(&leaf(&nullables(len, &[INT]))))
        }
        2 => {
            let mut bytes = question(&leaf(&long_type(rng)));
            bytes.truncate(bytes.len().min(180 + rng.below(40)));
            (no_table, bytes)
        }
        // The same in a table.
        3 => {
            let len = 190 + rng.below(5);
            let ty = type_of_length(rng, len);
            (in_table(rng, &ty), plain)
        }
        4 => {
            let ty = long_type(rng);
            let mut table = in_table(rng, &ty);
            if rng.chance(50) {
                let len = table.len();
                table.truncate(len - rng.below(40).min(len));
            }
            (table, plain)
        }
        // 63 to 66 nodes.
        5 | 6 => {
            let nodes = 63 + rng.below(4);
            (no_table, question(&tree_of(rng, nodes)))
        }
        // A 65th node that is cut, malformed, has an undefined id or a type without end.
        7 => {
            let mut tree: Bytes = [2, ADDR_OF].repeat(64);
            let last: Bytes = match rng.below(7) {
                0 => vec![],
                1 => vec![7],
                2 => vec![1, 23],
                3 => vec![4, 200, 200, 0, 0],
                4 => leaf(&nullables(200, &[INT])),
                5 => leaf(&nullables(rng.below(192), &[])),
                _ => vec![5, 0, 0, 17],
            };
            tree.extend(last);
            (no_table, question(&tree))
        }
        // 16 and 17 of everything that is counted.
        8 => {
            let count = 15 + rng.below(3);
            let args: Vec<Bytes> = (0..count).map(|_| leaf(&[INT])).collect();
            let tree = if rng.chance(50) { call(6, &args) } else { method(6, &leaf(&named(0)), &args) };
            (no_table, question(&tree))
        }
        9 => {
            let count = 15 + rng.below(3);
            let params: Vec<&[u8]> = (0..count).map(|_| &[INT][..]).collect();
            let ty = function(&params, &[STRING]);
            in_leaf_or_table(rng, &ty)
        }
        10 => {
            let count = 15 + rng.below(3);
            let mut table = Table::new();
            let f = table.name("f");
            let params: Vec<Param> = (0..count as u16).map(|i| (i, rng.below(4) as u8, vec![INT])).collect();
            table.plain(f, &[INT], &params);
            let args: Vec<Bytes> = (0..count.min(16)).map(|_| leaf(&[INT])).collect();
            (table.bytes(), question(&call(f, &args)))
        }
        // Names of 0, 1, 24 and 25 bytes, and every byte.
        11 => {
            let mut record = vec![1, *rng.pick(&[0, 1, 2, 23, 24, 25, 255])];
            let len = (record[1] as usize).min(24);
            let mut name: Bytes = (0..24).map(|i| if i < len { b'a' + i as u8 } else { 0 }).collect();
            match rng.below(4) {
                0 => name[rng.below(24)] = *rng.pick(&[0, 32, 33, 46, 126, 127, 255, 1]),
                1 => name[len.saturating_sub(1)] = rng.byte(),
                _ => {}
            }
            record.extend(name);
            (record, plain)
        }
        // Tables of 59,999 to 60,001 bytes.
        12 if index % (SHAPES * 4) == 12 => {
            let len = 59_999 + rng.below(3);
            let kind = *rng.pick(&[1, 5, 7]);
            (table_of_length(len, kind), plain)
        }
        12 => {
            // The same by zeros or repeated records, of which only the length matters.
            let len = 60_000 + rng.below(2);
            (vec![*rng.pick(&[0, 1, 5, 255]); len], plain)
        }
        // Questions of 16,384 and 16,385 bytes, with another fault inside.
        13 => {
            let mut bytes = match rng.below(5) {
                0 => question(&[2, ADDR_OF].repeat(65)),
                1 => question(&member(500, &leaf(&[INT]))),
                2 => question(&leaf(&nullables(300, &[INT]))),
                3 => question_in(777, NONE, false, &leaf(&[INT])),
                _ => plain,
            };
            bytes.resize(16_384 + rng.below(2), *rng.pick(&[0, 2, 12]));
            (no_table, bytes)
        }
        // The fullest diagnostics buffer, and one more.
        14 if index % (SHAPES * 8) == 14 => diagnostics_case(13_106 + rng.below(3)),
        14 => {
            let few = 33 + rng.below(60);
            diagnostics_case(few)
        }
        // Ids at the edge of what is defined.
        15 => {
            let mut table = Table::new();
            for i in 0..rng.below(3) {
                table.name(&format!("n{}", i));
            }
            let edge = 40 + table.records[0].len() as u16;
            let id = *rng.pick(&[edge - 1, edge, edge + 1, NONE, NONE - 1]);
            match rng.below(14) {
                0 => table.class(id, NONE, NONE, false),
                1 => table.class(0, id, NONE, false),
                2 => table.class(0, NONE, id, false),
                3 => table.operators(id, 1),
                4 => table.function(id, 0, 0, false, &[INT], &[]),
                5 => table.function(0, id, 0, false, &[INT], &[]),
                6 => table.plain(0, &named(id), &[]),
                7 => table.plain(0, &[INT], &[(id, 0, vec![INT])]),
                8 => table.field(id, 0, &[INT]),
                9 => table.visibility(id, 0, 1),
                10 => table.suspend(id, 0),
                11 => table.class_below(0, [NONE, id, NONE], NONE, false),
                12 => table.class_below(0, [NONE, NONE, id], NONE, false),
                _ => table.variant(id, 0),
            }
            (table.bytes(), plain)
        }
        16 => {
            let id = *rng.pick(&[38, 39, 40, 41, NONE, NONE - 1]);
            let tree = match rng.below(5) {
                0 => leaf(&named(id)),
                1 => leaf(&list(&module(id))),
                2 => named_arg(id, &leaf(&[INT])),
                3 => member(id, &leaf(&[INT])),
                _ => call(id, &[]),
            };
            let (current, package) = (*rng.pick(&[NONE, 0, id]), *rng.pick(&[NONE, 0, id]));
            (no_table, question_in(current, package, false, &tree))
        }
        // Flags, masks, visibilities and operators at the edge.
        17 => {
            let mut table = Table::new();
            let f = table.name("f");
            table.class(f, NONE, NONE, true);
            table.operators(f, 0x7ff);
            table.function(f, f, 3, true, &[INT], &[(f, 3, vec![INT])]);
            table.visibility(f, f, 3);
            let mut records = table.list();
            let i = 1 + rng.below(4);
            let record = &mut records[i];
            let at = match i {
                1 => CLASS - 1,
                2 => 4,
                3 => *rng.pick(&[5, 6, 7, 11]),
                _ => 5,
            };
            record[at] = record[at].wrapping_add(1 + rng.below(2) as u8 * 3);
            (records.concat(), plain)
        }
        18 => {
            let tree = match rng.below(3) {
                0 => binary(21 + rng.below(3) as u8, &leaf(&[INT]), &leaf(&[INT])),
                1 => unary(5 + rng.below(3) as u8, &leaf(&[INT])),
                _ => vec![6 + rng.below(2) as u8, 0, 0, 0, 0, 0],
            };
            let mut bytes = question(&tree);
            bytes[4] = rng.below(3) as u8;
            (no_table, bytes)
        }
        // Superclasses and interfaces: none, earlier, itself, later, without a record; behind a broken record.
        19 | 20 => {
            let mut table = Table::new();
            let names: Vec<u16> = (0..4).map(|i| table.name(&format!("C{}", i))).collect();
            let order: Vec<u16> = (0..4).map(|_| *rng.pick(&names)).collect();
            let none = [20, rng.below(101), rng.below(101)];
            for class in order.iter().take(1 + rng.below(4)) {
                let parents = none.map(|none| if rng.chance(none) { NONE } else { *rng.pick(&names) });
                table.class_below(*class, parents, NONE, true);
            }
            let mut bytes = table.bytes();
            if rng.chance(25) {
                let at = bytes.len() - 1 - CLASS * rng.below(2);
                bytes[at] = 2;
            }
            (bytes, plain)
        }
        // Repeated keys of each kind.
        21 => {
            let mut table = Table::new();
            let f = table.name(rng.pick::<&str>(&["f", "Pair", "keys", "plus", "pair"]));
            let g = table.name(rng.pick::<&str>(&["f", "g", "Set"]));
            let pick = |rng: &mut Rng| *rng.pick(&[f, g]);
            let (a, b, c, d) = (pick(rng), pick(rng), pick(rng), pick(rng));
            match rng.below(7) {
                0 => {
                    table.class(a, NONE, NONE, true);
                    table.class(b, NONE, NONE, false);
                }
                1 => {
                    table.operators(a, 1);
                    table.operators(b, 2);
                }
                2 => {
                    table.field(a, b, &[INT]);
                    table.field(c, d, &[LONG]);
                }
                3 => {
                    table.visibility(a, b, 1);
                    table.visibility(c, d, 2);
                }
                4 => {
                    table.suspend(*rng.pick(&[a, NONE]), b);
                    table.suspend(*rng.pick(&[c, NONE]), d);
                }
                5 => {
                    table.variant(a, b);
                    table.variant(c, d);
                }
                _ => {
                    table.plain(a, &[INT], &[(b, 0, vec![INT]), (c, 0, vec![INT])]);
                    table.plain(a, &[INT], &[(b, 0, vec![INT])]);
                }
            }
            (table.bytes(), plain)
        }
        // The longest types of a tree: a Function made of a result type, then addresses.
        22 => {
            let mut table = Table::new();
            let c = table.name("C");
            let len = 189 + rng.below(4);
            let result = type_of_length(rng, len);
            table.function(c, c, 0, false, &result, &[]);
            let mut tree = member(c, &leaf(&named(c)));
            for _ in 0..58 + rng.below(5) {
                tree = unary(ADDR_OF, &tree);
            }
            (table.bytes(), question(&tree))
        }
        23 => {
            let mut tree = leaf(&nullables(rng.below(192), &[13, ERROR]));
            for _ in 0..55 + rng.below(9) {
                tree = unary(*rng.pick(&[ADDR_OF, ADDR_OF, ADDR_OF, DEREFERENCE]), &tree);
            }
            (no_table, question(&tree))
        }
        // Error in a table's type.
        24 => {
            let ty = match rng.below(4) {
                0 => vec![ERROR],
                1 => list(&[ERROR]),
                2 => function(&[&[ERROR]], &[INT]),
                _ => map(&named(*rng.pick(&[0, 77])), &[ERROR]),
            };
            (in_table(rng, &ty), plain)
        }
        // Array flags and sizes.
        25 => {
            let mut ty = array(Some((rng.below(2) as u32 * rng.next() as u32) as u64), &[INT]);
            ty[1] = rng.below(3) as u8;
            in_leaf_or_table(rng, &ty)
        }
        // Deep calls and method calls.
        26 => {
            let mut table = Table::new();
            let f = table.name("f");
            table.plain(f, &[INT], &[(f, VARARG, vec![INT])]);
            table.function(f, f, rng.below(4) as u8, false, &named(f), &[]);
            let depth = 60 + rng.below(6);
            let tree = (1..depth).fold(leaf(&[if rng.chance(50) { INT } else { STRING }]), |t, _| call(f, &[t]));
            let chain = (1..depth).fold(leaf(&named(f)), |t, _| method(f, &t, &[]));
            (table.bytes(), question(if rng.chance(50) { &tree } else { &chain }))
        }
        // Bytes behind the tree, and header faults.
        27 => {
            let mut bytes = question(&leaf(&[INT]));
            match rng.below(4) {
                0 => bytes.push(rng.byte()),
                1 => bytes.truncate(rng.below(6)),
                2 => bytes[4] = 2 + rng.below(254) as u8,
                _ => bytes[rng.below(4)] = rng.byte(),
            }
            (no_table, bytes)
        }
        // A kind that falls, alone and with other faults in the record.
        28 => {
            let mut table = Table::new();
            let f = table.name("f");
            table.class(f, NONE, NONE, true);
            table.suspend(NONE, f);
            let mut bytes = table.bytes();
            let late: Bytes = match rng.below(5) {
                0 => class_record(1, [NONE; 3], NONE, 0),
                1 => class_record(99, [NONE; 3], NONE, 0),
                2 => class_record(1, [NONE; 3], NONE, 2),
                3 => vec![3, 0, 0, 0],
                _ => vec![6, 0, 0, 0, 0, 0],
            };
            bytes.extend(late);
            (bytes, plain)
        }
        // A faulty table beside a faulty question: the table's number.
        _ => {
            let table = *rng.pick(&[&[0u8][..], &[9], &[7, 0, 0], &[7, 1, 0, 99, 0], &[]]);
            let mut bytes = question(&leaf(&[INT]));
            bytes.resize(*rng.pick(&[0, 4, 5, 7, 16_385]), 0);
            (table.to_vec(), bytes)
        }
    }
}
