//! Names and the ids that they define (document 02, order 3): every id of a record and of a question at both ends of what
//! the names before it define, with names behind it and without; every fault of a name among names.

use super::place::{self, Part, Place};
use crate::bytes::*;
use crate::name::{BUILT_IN, NONE};
use std::sync::OnceLock;

type Pair = (Bytes, Bytes);

/// The most names in 60,000 bytes; 18 bytes are left then.
const MOST: usize = 2307;

/// How many names stand before what is asked. With 216 the first undefined id is 256.
const FEW: [usize; 4] = [0, 1, 2, 3];
const MANY: [usize; 10] = [78, 79, 215, 216, 217, 630, 631, 2298, 2306, MOST];

const PARTS: [Part; 9] = [
    (|| FEW.len() * IDS * SITES.len() * FRONTS.len() * ENDS.len(), |place| records(place, &FEW, IDS, &FRONTS, &ENDS)),
    (|| MANY.len() * LIMITS * SITES.len() * 2 * 2, |place| records(place, &MANY, LIMITS, &FRONTS[1..], &ENDS[..2])),
    (|| FEW.len() * IDS * NODES.len() * PLACES.len() * FRONTS.len(), |place| nodes(place, &FEW, IDS, &PLACES)),
    (|| MANY.len() * LIMITS * NODES.len() * FRONTS.len(), |place| nodes(place, &MANY, LIMITS, &PLACES[..1])),
    (|| (FEW.len() + MANY.len()) * IDS * HEADERS.len() * 2 * FRONTS.len(), headers),
    (|| 21 * 2 * faulty().len(), among_names),
    (|| WIDEST * (WIDEST + 1) * 2, repeated),
    (|| 25 * FAULTS.len() * FAULTS.len(), two_faults),
    (|| FEW.len() * 7 * (FAULTS.len() + 1) * 2, behind_another_kind),
];

/// Repeated names in tables of many, and among all names of one letter.
const REPEATS: usize = MANY.len() * 5 + LETTERS;

pub fn names_count() -> usize {
    place::count(&PARTS) + REPEATS
}

pub fn names(at: usize) -> Pair {
    place::case(&PARTS, at).unwrap_or_else(|behind| (repeated_among_many(behind), question(&leaf(&[INT]))))
}

/// The first of a row of `MOST` names, which have 2 to 24 letters.
fn name_records(count: usize) -> &'static [u8] {
    static ALL: OnceLock<Bytes> = OnceLock::new();
    let all = ALL.get_or_init(|| {
        let mut table = Table::new();
        for i in 0..MOST {
            table.name(&format!("{:_<width$}", format!("n{}", i), width = i * 7 % 25));
        }
        table.bytes()
    });
    &all[..NAME * count]
}

/// The ids at both ends of what so many names define, and beyond; the first `LIMITS` are nearest to an end.
fn id(names: usize, choice: usize) -> u16 {
    let next = (BUILT_IN.len() + names) as u16;
    [next - 1, next, NONE, 39, 40, next + 1, next + 256, NONE - 1][choice]
}

const IDS: usize = 8;
const LIMITS: usize = 3;

/// The bytes of what is put into a table.
fn bytes_of(put: impl Fn(&mut Table)) -> Bytes {
    let mut table = Table::new();
    put(&mut table);
    table.bytes()
}

/// A record with the id in one of its fields; all other ids are built in.
type Site = fn(u16) -> Bytes;

/// Every field of a record that is an id or has one in its type. The last three are types of 192 bytes and more.
const SITES: [Site; 36] = [
    |id| bytes_of(|t| t.class(id, NONE, NONE, true)),
    |id| bytes_of(|t| t.class(8, id, NONE, true)),
    |id| bytes_of(|t| t.class(8, NONE, id, false)),
    // The superclass's own record stands behind: 4, else 6.
    |id| [bytes_of(|t| t.class(8, id, NONE, true)), bytes_of(|t| t.class(id, NONE, NONE, true))].concat(),
    |id| bytes_of(|t| t.class_below(8, [NONE, id, NONE], NONE, true)),
    |id| bytes_of(|t| t.class_below(8, [7, NONE, id], 7, true)),
    // The same of an interface's own record.
    |id| [bytes_of(|t| t.class_below(8, [7, id, 7], 7, true)), bytes_of(|t| t.class(id, NONE, NONE, true))].concat(),
    |id| [bytes_of(|t| t.class_below(8, [NONE, 7, id], 7, true)), bytes_of(|t| t.class(id, NONE, NONE, true))].concat(),
    |id| bytes_of(|t| t.operators(id, 1)),
    |id| bytes_of(|t| t.function(id, 8, 0, false, &[INT], &[])),
    |id| bytes_of(|t| t.function(8, id, 3, true, &[INT], &[])),
    |id| bytes_of(|t| t.plain(8, &named(id), &[])),
    |id| bytes_of(|t| t.plain(8, &module(id), &[(7, 0, vec![INT])])),
    |id| bytes_of(|t| t.plain(8, &map(&named(7), &array(None, &named(id))), &[])),
    |id| bytes_of(|t| t.plain(8, &[INT], &[(id, 0, vec![INT])])),
    |id| bytes_of(|t| t.plain(8, &[INT], &[(7, 0, vec![INT]), (id, VARARG, vec![INT])])),
    |id| bytes_of(|t| t.plain(8, &[INT], &(7..22).chain([id]).map(|p| (p, DEFAULT, vec![INT])).collect::<Vec<_>>())),
    |id| bytes_of(|t| t.plain(8, &[INT], &[(7, 0, named(id))])),
    |id| bytes_of(|t| t.plain(8, &[INT], &[(7, 0, vec![INT]), (6, 0, list(&module(id)))])),
    |id| bytes_of(|t| t.field(id, 8, &[INT])),
    |id| bytes_of(|t| t.field(8, id, &[INT])),
    |id| bytes_of(|t| t.field(8, 7, &named(id))),
    |id| bytes_of(|t| t.field(8, 7, &module(id))),
    |id| bytes_of(|t| t.field(8, 7, &nullable(&pointer(&named(id))))),
    |id| bytes_of(|t| t.field(8, 7, &function(&[&[INT], &named(id)], &named(7)))),
    |id| bytes_of(|t| t.visibility(id, 8, 1)),
    |id| bytes_of(|t| t.visibility(8, id, 2)),
    |id| bytes_of(|t| t.suspend(id, 8)),
    |id| bytes_of(|t| t.suspend(8, id)),
    |id| bytes_of(|t| t.variant(id, 8)),
    |id| bytes_of(|t| t.variant(8, id)),
    // Error in the type too: 4 before 7.
    |id| bytes_of(|t| t.field(8, 7, &map(&named(id), &[ERROR]))),
    // A malformed byte behind the id: 2 before 4.
    |id| bytes_of(|t| t.field(8, 7, &map(&named(id), &[23]))),
    |id| bytes_of(|t| t.field(8, 7, &nullables(189, &named(id)))),
    |id| bytes_of(|t| t.field(8, 7, &nullables(190, &named(id)))),
    |id| bytes_of(|t| t.field(8, 7, &map(&named(id), &nullables(192, &[INT])))),
];

/// A record of each kind from 2 to a highest one, with built-in names that no site has.
fn each_kind(to: u8) -> Bytes {
    let mut table = Table::new();
    table.class(9, NONE, NONE, true);
    table.operators(9, 1);
    table.function(9, 10, 0, false, &[INT], &[(11, 0, vec![INT])]);
    table.field(9, 10, &[INT]);
    table.visibility(9, 10, 1);
    table.suspend(9, 10);
    table.variant(9, 10);
    table.records[1..to as usize].concat().concat()
}

/// What stands between the names and a record of a kind: nothing, a class, or a record of each kind up to its own.
type Front = fn(u8) -> Bytes;

const FRONTS: [Front; 3] = [|_| vec![], |_| each_kind(2), each_kind];

/// What stands behind a record.
const ENDS: [fn() -> Bytes; 7] = [
    Vec::new,
    || Table::with_names(&["later"]).bytes(),
    || Table::with_names(&["later", "latest"]).bytes(),
    // A name of no letters, a cut one, one that is spelled as the first.
    || vec![1; NAME],
    || vec![1, 5],
    || name_records(1).to_vec(),
    || [each_kind(8), Table::with_names(&["later"]).bytes()].concat(),
];

fn records(mut place: Place, counts: &[usize], ids: usize, fronts: &[Front], ends: &[fn() -> Bytes]) -> Pair {
    let names = place.of(counts);
    let record = place.of(&SITES)(id(names, place.below(ids)));
    let front = place.of(fronts)(record[0]);
    let end = place.of(ends)();
    ([name_records(names), &front, &record, &end].concat(), question(&leaf(&[INT])))
}

/// A node with the id as one of its own, or in its type. The last are malformed or cut: 8 before 10.
const NODES: [fn(u16) -> Bytes; 20] = [
    |id| leaf(&named(id)),
    |id| leaf(&module(id)),
    |id| leaf(&list(&nullable(&named(id)))),
    |id| leaf(&map(&named(7), &named(id))),
    |id| leaf(&function(&[&module(id)], &[INT])),
    |id| leaf(&array(Some(2), &named(id))),
    |id| leaf(&nullables(189, &named(id))),
    |id| leaf(&nullables(190, &named(id))),
    |id| leaf(&map(&named(id), &nullables(192, &[INT]))),
    |id| leaf(&map(&named(id), &[ERROR])),
    |id| named_arg(id, &leaf(&[INT])),
    |id| member(id, &leaf(&[ANY])),
    |id| call(id, &[]),
    |id| call(id, &[leaf(&[INT]), leaf(&[STRING])]),
    |id| method(id, &leaf(&[INT]), &[]),
    |id| method(id, &leaf(&named(9)), &[leaf(&[INT])]),
    |id| leaf(&map(&named(id), &[23])),
    |id| with_id(5, id, &[17]),
    |id| with_id(6, id, &[]),
    |id| with_id(4, id, &[]),
];

/// A node's first bytes.
fn with_id(kind: u8, id: u16, rest: &[u8]) -> Bytes {
    [&[kind][..], &id.to_le_bytes(), rest].concat()
}

/// Where a node stands: at the root, behind another, as an argument, as one that is not visited, beside another with the
/// first undefined id of an empty table, as the 64th and 65th.
const PLACES: [fn(&[u8]) -> Bytes; 7] = [
    |node| node.to_vec(),
    |node| binary(ADD, &leaf(&[INT]), node),
    |node| call(9, &[leaf(&named(0)), node.to_vec()]),
    |node| method(9, &leaf(&[INT]), &[node.to_vec()]),
    |node| binary(EQ, node, &leaf(&named(40))),
    |node| [&[2, ADDR_OF].repeat(63)[..], node].concat(),
    |node| [&[2, ADDR_OF].repeat(64)[..], node].concat(),
];

/// A table of so many names and the records of a front, up to kind 8.
fn table_of(names: usize, front: Front) -> Bytes {
    [name_records(names), &front(8)].concat()
}

fn nodes(mut place: Place, counts: &[usize], ids: usize, places: &[fn(&[u8]) -> Bytes]) -> Pair {
    let names = place.of(counts);
    let node = place.of(&NODES)(id(names, place.below(ids)));
    let tree = place.of(places)(&node);
    (table_of(names, place.of(&FRONTS)), question(&tree))
}

/// Current type and package; the suspend byte's fault: 8 before 10.
const HEADERS: [fn(u16) -> (u16, u16, bool); 5] =
    [|id| (id, NONE, false), |id| (NONE, id, false), |id| (id, id, false), |id| (id, 0, true), |id| (0, id, true)];

fn headers(mut place: Place) -> Pair {
    let names = place.of(&[&FEW[..], &MANY[..]].concat());
    let id = id(names, place.below(IDS));
    let (current, package, faulty) = place.of(&HEADERS)(id);
    let tree = [leaf(&[INT]), leaf(&named(id))][place.below(2)].clone();
    let mut question = question_in(current, package, false, &tree);
    question[4] = 2 * faulty as u8;
    (table_of(names, place.of(&FRONTS)), question)
}

// Names among names.

/// A name's record with these bytes as its length and letters.
fn name_record(length: u8, letters: &[u8]) -> Bytes {
    let mut record = [&[1, length], letters].concat();
    record.resize(NAME, 0);
    record
}

/// Names that are malformed or cut in every way, names that are just not, and the built-in spellings with a letter more and
/// less.
fn faulty() -> &'static [Bytes] {
    static ALL: OnceLock<Vec<Bytes>> = OnceLock::new();
    ALL.get_or_init(|| {
        let letters = b"abcdefghijklmnopqrstuvwx";
        // Each length beside as many letters, one more and one less.
        let mut all: Vec<Bytes> = [0, 1, 2, 12, 23, 24, 25, 26, 255]
            .iter()
            .flat_map(|length| {
                [-1, 0, 1].map(|more| name_record(*length, &letters[..(*length as i32 + more).clamp(0, 24) as usize]))
            })
            .collect();
        // A byte in the name's first, middle and last place, right behind it and in the last of the 24.
        for length in [1, 3, 23, 24] {
            for place in [0, length / 2, length - 1, length.min(23), 23] {
                for byte in [0, 1, 32, 33, 45, 46, 47, 126, 127, 128, 255] {
                    let mut record = name_record(length as u8, &letters[..length]);
                    record[2 + place] = byte;
                    all.push(record);
                }
            }
        }
        for kind in [0, 2, 9, 255] {
            let mut record = name_record(3, b"abc");
            record[0] = kind;
            all.push(record);
        }
        all.extend((1..NAME).map(|length| name_record(24, letters)[..length].to_vec()));
        for name in BUILT_IN {
            let name = name.as_bytes();
            all.push(name_record(name.len() as u8, name));
            all.push(name_record(name.len() as u8 + 1, &[name, b"x"].concat()));
            all.push(name_record(name.len() as u8 - 1, &name[..name.len() - 1]));
        }
        all
    })
}

/// So many names with something put in at a place.
fn put_among(count: usize, place: usize, put: &[u8]) -> Bytes {
    let (before, behind) = name_records(count).split_at(NAME * place);
    [before, put, behind].concat()
}

/// What stands behind the names: nothing, or a record of each kind.
fn closed(names: Bytes, choice: usize) -> Pair {
    let end = if choice == 0 { vec![] } else { each_kind(8) };
    ([names, end].concat(), question(&leaf(&[INT])))
}

/// Each of these among up to 5 names, at every place.
fn among_names(mut place: Place) -> Pair {
    let end = place.below(2);
    let put = &faulty()[place.below(faulty().len())];
    let (mut count, mut at) = (0, place.below(21));
    while at > count {
        at -= count + 1;
        count += 1;
    }
    closed(put_among(count, at, put), end)
}

/// The most names in which each is put in again, at every place.
const WIDEST: usize = 25;

fn repeated(mut place: Place) -> Pair {
    let end = place.below(2);
    let (one, at) = (place.below(WIDEST), place.below(WIDEST + 1));
    closed(put_among(WIDEST, at, again(one)), end)
}

/// The name at a place.
fn again(at: usize) -> &'static [u8] {
    &name_records(at + 1)[NAME * at..]
}

/// One of each sort of fault: no letters, a dot, a letter behind the name, a cut name, no kind, a built-in spelling, the
/// first name again; and a good name.
const FAULTS: [fn() -> Bytes; 8] = [
    || name_record(0, &[]),
    || name_record(3, b"a.b"),
    || name_record(3, b"abcd"),
    || name_record(3, b"abc")[..NAME - 1].to_vec(),
    || vec![9; NAME],
    || name_record(4, b"plus"),
    || again(0).to_vec(),
    || name_record(3, b"abc"),
];

/// Two of them among 4 names: the first decides.
fn two_faults(mut place: Place) -> Pair {
    let (one, other) = (place.of(&FAULTS)(), place.of(&FAULTS)());
    let (first, second) = (place.below(5), place.below(5));
    let names = put_among(4, first, &one);
    let at = (NAME * second).min(names.len());
    ([&names[..at], &other, &names[at..]].concat(), question(&leaf(&[INT])))
}

/// One of them behind records of another kind, then nothing or a record with the id that a name there would define.
fn behind_another_kind(mut place: Place) -> Pair {
    let names = place.of(&FEW);
    let front = each_kind(2 + place.below(7) as u8);
    let put = match place.below(FAULTS.len() + 1) {
        at if at < FAULTS.len() => FAULTS[at](),
        _ => Table::with_names(&["later", "latest"]).bytes(),
    };
    let end = if place.below(2) == 0 { vec![] } else { bytes_of(|t| t.variant(id(names, 1), 8)) };
    ([name_records(names), &front, &put, &end].concat(), question(&leaf(&[INT])))
}

/// How many names of one letter there are.
const LETTERS: usize = 126 - 33;

/// A name again behind all of a long row, or a letter behind all letters.
fn repeated_among_many(at: usize) -> Bytes {
    if at < LETTERS {
        let letters: Vec<Bytes> = (33..=126).filter(|b| *b != 46).map(|b| name_record(1, &[b])).collect();
        return [letters.concat(), letters[at].clone()].concat();
    }
    let mut place = Place(at - LETTERS);
    let count = place.of(&MANY);
    let one = place.of(&[0, 1, count / 2, count - 2, count - 1]);
    put_among(count, count, again(one))
}
