//! A sweep over Arrays of both kinds (document 02, order 5): every size at a limit where every other is expected, as an
//! argument, beside another overload and in a comparison; members and operators; every flag; every cut; every place of a
//! body around the 192nd byte.

use super::arrays::LEAST;
use super::place::{self, Part, Place};
use crate::bytes::*;
use crate::name::{BUILT_IN, NONE};
use std::sync::OnceLock;

type Pair = (Bytes, Bytes);

// Names of the sweep's table: Page, and Scan below it where classes are asked.
const PAGE: u16 = 40;
const SCAN: u16 = 41;

// Built-in names that name a function, its parameter and a field.
const F: u16 = 29;
const P: u16 = 20;
const FIELD: u16 = 36;

/// Sizes at both ends of both kinds, and none.
const SIZES: [Option<u64>; 7] = [None, Some(0), Some(1), Some(LEAST - 1), Some(LEAST), Some(LEAST + 1), Some(u64::MAX)];

/// How many ways there are around an element: a List, or an Array of each size.
const AROUND: usize = 1 + SIZES.len();

fn around(way: usize, element: &[u8]) -> Bytes {
    match way {
        0 => list(element),
        _ => array(SIZES[way - 1], element),
    }
}

const PARTS: [Part; 9] = [
    (|| types().len() * types().len() * 3, pairs),
    (|| AROUND * AROUND * 3 * 3, classes),
    (|| AROUND * AROUND * AROUND * 3 * 3, overloads),
    (|| types().len() * (7 + 2 * BUILT_IN.len()), singles),
    (|| 256 * BODIES.len() * SITES.len(), flags),
    (|| 233 * TAILS.len() * SITES.len(), kinds_above),
    (|| ends().len() * BEHIND * HOLDERS.len() * SITES.len(), cuts),
    (|| OFFSETS * ends().len() * OPEN.len() * 2, offsets),
    (|| OFFSETS * bodies().len() * (BEHIND - 1) * SITES.len(), offsets_before_more),
];

pub fn array_sizes_count() -> usize {
    place::count(&PARTS)
}

pub fn array_sizes(at: usize) -> Pair {
    place::case(&PARTS, at).expect("a case of the sweep")
}

/// Every way around some elements, and what else may stand beside an Array.
fn types() -> &'static [Bytes] {
    static TYPES: OnceLock<Vec<Bytes>> = OnceLock::new();
    TYPES.get_or_init(|| {
        let elements = [
            vec![INT],
            vec![LONG],
            vec![STRING],
            vec![ANY],
            vec![NOTHING],
            nullable(&[INT]),
            list(&[INT]),
            array(Some(3), &[INT]),
            array(Some(LEAST), &[INT]),
            pointer(&array(Some(LEAST), &[INT])),
        ];
        // Two of the ways around Int stand among the elements.
        let mut types: Vec<Bytes> = elements.to_vec();
        let ways = elements.iter().flat_map(|element| (0..AROUND).map(|way| around(way, element)));
        types.extend(ways.filter(|ty| !elements.contains(ty)));
        types.extend((1..=5).map(named));
        types.extend([nullable(&[NOTHING]), nullable(&named(2)), nullable(&list(&[INT]))]);
        types.extend(SIZES.map(|size| nullable(&array(size, &[INT]))));
        types.extend(SIZES.map(|size| map(&[INT], &array(size, &[INT]))));
        types.extend(SIZES.map(|size| function(&[&array(size, &[INT])], &[INT])));
        types
    })
}

/// A value of one type where another is expected: of the only overload, beside one of the value's own type, in a comparison.
fn asked(from: &[u8], to: &[u8], what: usize) -> Pair {
    let mut table = Table::with_names(&["Page", "Scan"]);
    table.class(PAGE, NONE, NONE, true);
    table.class(SCAN, NONE, NONE, true);
    if what == 2 {
        return (table.bytes(), question(&binary(EQ, &leaf(from), &leaf(to))));
    }
    table.plain(F, &[CHAR], &[(P, 0, to.to_vec())]);
    if what == 1 {
        table.plain(F, &[BOOLEAN], &[(P, 0, from.to_vec())]);
    }
    (table.bytes(), question(&call(F, &[leaf(from)])))
}

fn pairs(mut place: Place) -> Pair {
    let (from, to) = (&types()[place.below(types().len())], &types()[place.below(types().len())]);
    asked(from, to, place.below(3))
}

/// Elements of which one is a class below the other, or the other way round, or the same.
fn classes(mut place: Place) -> Pair {
    let (left, right) = [(SCAN, PAGE), (PAGE, SCAN), (SCAN, SCAN)][place.below(3)];
    let from = around(place.below(AROUND), &named(left));
    let to = around(place.below(AROUND), &named(right));
    let (mut table, question) = asked(&from, &to, place.below(3));
    // The second class record: its superclass.
    table[NAME * 2 + CLASS + 3..][..2].copy_from_slice(&PAGE.to_le_bytes());
    (table, question)
}

/// Two overloads by the size of their parameter, called with each size; alone, by name, and as methods.
fn overloads(mut place: Place) -> Pair {
    let mut table = Table::new();
    let form = place.below(3);
    let owner = if form == 2 { FIELD } else { NONE };
    let given = around(place.below(AROUND), &[[INT], [LONG], [BOOLEAN]][place.below(3)]);
    for result in [CHAR, BOOLEAN] {
        table.function(owner, F, 0, false, &[result], &[(P, 0, around(place.below(AROUND), &[INT]))]);
    }
    let tree = match form {
        0 => call(F, &[leaf(&given)]),
        1 => call(F, &[named_arg(P, &leaf(&given))]),
        _ => method(F, &leaf(&named(FIELD)), &[leaf(&given)]),
    };
    (table.bytes(), question(&tree))
}

/// Every unary operator, and every built-in name as a member and as a method.
fn singles(mut place: Place) -> Pair {
    let object = leaf(&types()[place.below(types().len())]);
    let tree = match place.below(7 + 2 * BUILT_IN.len()) {
        op @ 0..=6 => unary(op as u8, &object),
        name if name - 7 < BUILT_IN.len() => member((name - 7) as u16, &object),
        name => method((name - 7 - BUILT_IN.len()) as u16, &object, &[leaf(&[INT])]),
    };
    (Vec::new(), question(&tree))
}

/// Where a type may stand, behind its other bytes: a leaf, a field, a result, a parameter.
const SITES: [fn(&[u8]) -> Pair; 4] = [
    |ty| (Vec::new(), question(&leaf(ty))),
    |ty| in_table(|table| table.field(FIELD, P, ty)),
    |ty| in_table(|table| table.plain(F, ty, &[])),
    |ty| in_table(|table| table.plain(F, &[INT], &[(P, 0, ty.to_vec())])),
];

/// A table that ends with the type, and a question that an accepted one is asked.
fn in_table(put: impl Fn(&mut Table)) -> Pair {
    let mut table = Table::new();
    put(&mut table);
    (table.bytes(), question(&member(P, &leaf(&named(FIELD)))))
}

/// A kind and a size.
const BODIES: [(u8, u64); 14] = [
    (14, 0),
    (14, 1),
    (14, 1 << 31),
    (14, LEAST - 1),
    (22, 0),
    (22, 1),
    (22, 255),
    (22, 1 << 31),
    (22, LEAST - 1),
    (22, LEAST),
    (22, LEAST + 1),
    (22, 1 << 40),
    (22, 1 << 63),
    (22, u64::MAX),
];

fn body(kind: u8, flag: u8, size: u64, element: &[u8]) -> Bytes {
    let size = size.to_le_bytes();
    array_body(kind, flag, if kind == 14 { &size[..4] } else { &size }, element)
}

/// Every flag of each kind with each size.
fn flags(mut place: Place) -> Pair {
    let flag = place.below(256) as u8;
    let (kind, size) = BODIES[place.below(BODIES.len())];
    SITES[place.below(SITES.len())](&body(kind, flag, size, &[INT]))
}

/// What stands behind a kind above 22.
const TAILS: [&[u8]; 5] = [
    &[],
    &[INT],
    &[1, 0, 0, 0, 0, INT],
    &[1, 0, 0, 0, 0, 1, 0, 0, 0, INT],
    &[1, 0, 0, 0, 0, 0, 0, 0, 0, 1, 0, 0, 0, 0, 0, 0, 0, INT],
];

fn kinds_above(mut place: Place) -> Pair {
    let kind = 23 + place.below(233) as u8;
    let tail = TAILS[place.below(TAILS.len())];
    SITES[place.below(SITES.len())](&[&[kind], tail].concat())
}

/// Arrays of both kinds, well formed and not, with an element of one byte or of three.
fn bodies() -> &'static [Bytes] {
    static BODIES: OnceLock<Vec<Bytes>> = OnceLock::new();
    BODIES.get_or_init(|| {
        vec![
            body(14, 0, 0, &[INT]),
            body(14, 1, LEAST - 1, &[INT]),
            body(14, 0, 1, &[INT]),
            body(14, 2, 0, &[INT]),
            body(22, 1, LEAST, &[INT]),
            body(22, 1, 1 << 63, &named(39)),
            body(22, 1, LEAST, &named(40)),
            body(22, 1, LEAST - 1, &[INT]),
            body(22, 0, LEAST, &[INT]),
            body(22, 0, 0, &[INT]),
            body(22, 2, LEAST, &[INT]),
            body(22, 1, LEAST, &[ERROR]),
            body(22, 1, LEAST, &[23]),
        ]
    })
}

/// What there is of an Array, and of what is behind it: each of them cut behind each of its bytes, whole, and with up to three
/// bytes behind it.
fn ends() -> &'static [Bytes] {
    static ENDS: OnceLock<Vec<Bytes>> = OnceLock::new();
    ENDS.get_or_init(|| {
        let mut ends: Vec<Bytes> = Vec::new();
        for body in bodies() {
            let more = [&body[..], &[INT; 3]].concat();
            for len in 0..=more.len() {
                if !ends.iter().any(|end| *end == more[..len]) {
                    ends.push(more[..len].to_vec());
                }
            }
        }
        ends
    })
}

/// What a type stands in, up to it.
const HOLDERS: [&[u8]; 6] = [&[], &[12], &[16], &[16, INT], &[18, 1], &[22, 1, 3, 0, 0, 0, 1, 0, 0, 0]];

/// How many ways there are behind a cut type: nothing, and twice bytes of which some may be taken for the type's.
const BEHIND: usize = 3;

fn behind(choice: usize) -> &'static [u8] {
    [&[][..], &[7, 1, 0, 2, 0], &[1; 12]][choice]
}

/// A type with bytes behind it in the table or the question.
fn before_more(site: usize, ty: &[u8], more: &[u8]) -> Pair {
    let (mut table, mut question) = SITES[site](ty);
    if site == 0 { &mut question } else { &mut table }.extend_from_slice(more);
    (table, question)
}

/// Each Array cut, whole or with more behind it, in a holder.
fn cuts(mut place: Place) -> Pair {
    let more = behind(place.below(BEHIND));
    let ty = [HOLDERS[place.below(HOLDERS.len())], &ends()[place.below(ends().len())]].concat();
    before_more(place.below(SITES.len()), &ty, more)
}

/// How many counts of bytes before an Array's kind there are: 170 to 193.
const OFFSETS: usize = 24;

/// A kind that is left open, with its body, again and again; Nullables in front fill up.
const OPEN: [&[u8]; 5] = [&[12], &[13], &[15], &[22, 1, 7, 0, 0, 0, 1, 0, 0, 0], &[14, 1, 7, 0, 0, 0]];

fn open(kind: &[u8], len: usize) -> Bytes {
    [vec![12; len % kind.len()], kind.repeat(len / kind.len())].concat()
}

/// An Array's kind at each place around the 192nd byte, cut at each of its bytes or with more bytes behind it.
fn offsets(mut place: Place) -> Pair {
    let before = open(OPEN[place.below(OPEN.len())], 170 + place.below(OFFSETS));
    SITES[place.below(2)](&[&before[..], &ends()[place.below(ends().len())]].concat())
}

/// The same but for its last byte, before what may be taken for that.
fn offsets_before_more(mut place: Place) -> Pair {
    let before = 170 + place.below(OFFSETS);
    let body = &bodies()[place.below(bodies().len())];
    let more = behind(1 + place.below(BEHIND - 1));
    let ty = [open(&[15], before), body[..body.len() - 1].to_vec()].concat();
    before_more(place.below(SITES.len()), &ty, more)
}
