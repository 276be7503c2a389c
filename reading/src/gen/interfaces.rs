//! A sweep over superclasses and interfaces (document 02, order 6): every hierarchy of three classes and a name without a
//! record, in which each class goes to each other, alone and held by others; protected access, operator methods and comparisons
//! under the same; overloads by how their parameter is reached; towers; every class record whose parents, package and flag are
//! of a few values; cut records, and those of 8 bytes.

use super::classes::WRAPS;
use super::place::{self, Part, Place};
use crate::bytes::*;
use crate::name::NONE;
use crate::rng::Rng;

type Pair = (Bytes, Bytes);
type Wrap = fn(&[u8]) -> Bytes;

/// The names of a hierarchy are Aa, Bb, Cc, Nn from 40 on. Its class records stand in this order; Nn has none.
const ORDER: [u16; 3] = [41, 42, 40];
const BARE: u16 = 43;
const CLASSES: [u16; 4] = [ORDER[0], ORDER[1], ORDER[2], BARE];

/// Built-in names of functions, a parameter, a method and a field.
const FUNCTIONS: [u16; 4] = [26, 27, 28, 29];
const P: u16 = 20;
const METHOD: u16 = 30;
const FIELD: u16 = 36;
const PLUS: u16 = 6;

/// The first class may have Nn as one of its three; each other class may have Nn and each earlier class in each place.
const HIERARCHIES: usize = 4 * 3 * 3 * 3 * 4 * 4 * 4;

const PARTS: [Part; 9] = [
    (|| HIERARCHIES * HELD.len(), passed),
    (|| HIERARCHIES * CLASSES.len(), guarded),
    (|| HIERARCHIES * CLASSES.len(), operators),
    (|| HIERARCHIES, comparisons),
    (|| WRAPS.len() * WRAPS.len() * 4 * 2, wrapped),
    (|| TARGETS * TARGETS * 3, overloads),
    (|| TOWERS * 2 * 3 * (3 * LEVELS + 1), towers),
    (|| VALUES * VALUES * VALUES * PACKAGES * 2 * BEHIND, records),
    (|| FRONTS * FORMS * CLASS * 2, cuts),
];

pub fn interfaces_count() -> usize {
    place::count(&PARTS)
}

pub fn interfaces(at: usize) -> Pair {
    place::case(&PARTS, at).expect("a case of the sweep")
}

/// In every third table, interfaces in some of its class records, and superclasses in an interface's place: earlier classes or
/// some without a record.
pub fn put_interfaces(rng: &mut Rng, classes: &mut [Bytes], without_record: &[u16]) {
    if !rng.chance(33) {
        return;
    }
    let mut above = without_record.to_vec();
    for class in classes {
        let mut three = parents(class, 0);
        three.rotate_right(*rng.pick(&[0, 0, 1, 2]));
        let more = |parent: u16| match parent {
            NONE if !above.is_empty() && rng.chance(40) => *rng.pick(&above),
            _ => parent,
        };
        let bytes = three.map(more).map(u16::to_le_bytes);
        class[3..9].copy_from_slice(bytes.as_flattened());
        above.push(u16::from_le_bytes([class[1], class[2]]));
    }
}

fn hierarchy(place: &mut Place) -> Table {
    let mut table = Table::with_names(&["Aa", "Bb", "Cc", "Nn"]);
    let first = place.below(4);
    table.class_below(ORDER[0], [0, 1, 2].map(|at| if at == first { BARE } else { NONE }), NONE, true);
    for i in 1..3 {
        let choices = [NONE, BARE, ORDER[0], ORDER[1]];
        let parents = [0; 3].map(|_| choices[place.below(2 + i)]);
        table.class_below(ORDER[i], parents, NONE, i == 2);
    }
    table
}

/// Several questions of type Boolean in one.
fn all(parts: Vec<Bytes>) -> Bytes {
    parts.into_iter().reduce(|tree, part| binary(AND, &tree, &part)).expect("a part")
}

/// Each class with each other.
fn pairs() -> impl Iterator<Item = (usize, usize)> {
    (0..16).map(|n| (n / 4, n % 4)).filter(|(from, to)| from != to)
}

/// What holds a value's class, and what holds the class that is expected.
const HELD: [(Wrap, Wrap); 5] = [
    (|x| x.to_vec(), |x| x.to_vec()),
    (|x| array(Some(3), x), |x| array(None, x)),
    (list, |x| array(None, &nullable(x))),
    (|x| nullables(2, x), |x| x.to_vec()),
    (|x| x.to_vec(), |x| nullable(x)),
];

/// Each class where each other is expected.
fn passed(mut place: Place) -> Pair {
    let (value, expected) = HELD[place.below(HELD.len())];
    let mut table = hierarchy(&mut place);
    for (name, class) in FUNCTIONS.into_iter().zip(CLASSES) {
        table.plain(name, &[BOOLEAN], &[(P, 0, expected(&named(class)))]);
    }
    let one = |(from, to): (usize, usize)| call(FUNCTIONS[to], &[leaf(&value(&named(CLASSES[from])))]);
    (table.bytes(), question(&all(pairs().map(one).collect())))
}

/// A protected method and a protected field of each class, from inside one.
fn guarded(mut place: Place) -> Pair {
    let current = CLASSES[place.below(CLASSES.len())];
    let mut table = hierarchy(&mut place);
    for class in CLASSES {
        table.function(class, METHOD, 1, false, &[BOOLEAN], &[]);
        table.field(class, FIELD, &[BOOLEAN]);
        table.visibility(class, FIELD, 1);
    }
    let object = |class: u16| leaf(&named(class));
    let parts = CLASSES.into_iter().flat_map(|c| [method(METHOD, &object(c), &[]), member(FIELD, &object(c))]);
    (table.bytes(), question_in(current, NONE, false, &all(parts.collect())))
}

/// Plus of each class, where one has that method and the sets of the others are empty.
fn operators(mut place: Place) -> Pair {
    let holder = CLASSES[place.below(CLASSES.len())];
    let mut table = hierarchy(&mut place);
    for class in CLASSES {
        table.operators(class, (class == holder) as u16);
    }
    table.function(holder, PLUS, 0, false, &[BOOLEAN], &[]);
    let parts = CLASSES.map(|class| binary(ADD, &leaf(&named(class)), &leaf(&[INT])));
    (table.bytes(), question(&all(parts.to_vec())))
}

fn comparisons(mut place: Place) -> Pair {
    let table = hierarchy(&mut place);
    let one = |(left, right): (usize, usize)| binary(EQ, &leaf(&named(CLASSES[left])), &leaf(&named(CLASSES[right])));
    (table.bytes(), question(&all(pairs().map(one).collect())))
}

/// Every wrapping of a class where every wrapping of another is expected: up by the first interface, by the second, by a
/// class in between, and down. With an overload that takes everything, and in a comparison.
fn wrapped(mut place: Place) -> Pair {
    let mut table = Table::with_names(&["Aa", "Bb", "Cc", "Nn"]);
    table.class_below(ORDER[0], [NONE, BARE, NONE], NONE, true);
    table.class_below(ORDER[1], [NONE; 3], NONE, false);
    table.class_below(ORDER[2], [NONE, ORDER[0], ORDER[1]], NONE, true);
    let (from, to) = (WRAPS[place.below(WRAPS.len())], WRAPS[place.below(WRAPS.len())]);
    let (below, above) =
        [(ORDER[2], ORDER[0]), (ORDER[2], ORDER[1]), (ORDER[2], BARE), (ORDER[1], ORDER[2])][place.below(4)];
    let (from, to) = (from(&named(below)), to(&named(above)));
    if place.below(2) == 1 {
        return (table.bytes(), question(&binary(EQ, &leaf(&from), &leaf(&to))));
    }
    table.plain(FUNCTIONS[0], &[STRING], &[(P, 0, to)]);
    table.plain(FUNCTIONS[0], &[DOUBLE], &[(P, 0, vec![ANY])]);
    (table.bytes(), question(&call(FUNCTIONS[0], &[leaf(&from)])))
}

/// What the parameter of an overload may be: the class itself (40); its superclass and interfaces (41 to 43); what stands above
/// each of these (44 to 46); the class above all (47) and an unrelated one (48); Any and Int.
const TARGETS: usize = 11;

/// Two overloads by how their parameter is reached; alone, by name, and as methods.
fn overloads(mut place: Place) -> Pair {
    let mut table = Table::with_names(&["Aa", "Bb", "Cc", "Dd", "Ee", "Ff", "Gg", "Hh", "Ii"]);
    table.class_below(47, [NONE; 3], NONE, true);
    table.class_below(44, [47, NONE, NONE], NONE, true);
    table.class_below(45, [NONE, 47, NONE], NONE, true);
    table.class_below(46, [NONE, NONE, 47], NONE, true);
    table.class_below(41, [NONE, 44, NONE], NONE, true);
    table.class_below(42, [45, NONE, NONE], NONE, true);
    table.class_below(43, [NONE, NONE, 46], NONE, true);
    table.class_below(40, [41, 42, 43], NONE, true);
    let form = place.below(3);
    let owner = if form == 2 { FIELD } else { NONE };
    for result in [CHAR, BOOLEAN] {
        let ty = match place.below(TARGETS) {
            9 => vec![ANY],
            10 => vec![INT],
            target => named(40 + target as u16),
        };
        table.function(owner, METHOD, 0, false, &[result], &[(P, 0, ty)]);
    }
    let given = leaf(&named(40));
    let tree = match form {
        0 => call(METHOD, &[given]),
        1 => call(METHOD, &[named_arg(P, &given)]),
        _ => method(METHOD, &leaf(&named(FIELD)), &[given]),
    };
    (table.bytes(), question(&tree))
}

/// Towers of up to 20 levels of three classes: each class has all three of the level above; or the first two of a level stand
/// below the last one above, and the last one below these two.
const TOWERS: usize = 2;
const LEVELS: usize = 20;

/// The names of the classes go on from 40, level by level.
fn tower(levels: usize, diamonds: bool) -> Table {
    let mut table = Table::new();
    for class in 0..3 * LEVELS + 1 {
        table.name(&format!("C{}", class));
    }
    for class in 40..40 + 3 * levels as u16 {
        let parents = match (class - 40) / 3 * 3 + 40 {
            _ if diamonds && (class - 40) % 3 == 2 => [class - 1, NONE, class - 2],
            40 => [NONE; 3],
            first if diamonds => [NONE, first - 1, NONE],
            first => [first - 1, first - 3, first - 2],
        };
        table.class_below(class, parents, NONE, true);
    }
    table
}

/// A class of the lowest level of a tower of ten levels or of all where each class is expected, the last of which is none of
/// the tower.
fn towers(mut place: Place) -> Pair {
    let diamonds = place.below(TOWERS) == 1;
    let levels = [LEVELS / 2, LEVELS][place.below(2)];
    let mut table = tower(levels, diamonds);
    let from = 40 + 3 * (levels - 1) + place.below(3);
    let to = 40 + place.below(3 * LEVELS + 1);
    table.plain(FUNCTIONS[0], &[STRING], &[(P, 0, named(to as u16))]);
    (table.bytes(), question(&call(FUNCTIONS[0], &[leaf(&named(from as u16))])))
}

/// What a parent may be: none, an earlier class (41, and 42 below it), the class itself (40), one whose record stands behind
/// or nowhere (43), one without a record (44), the first undefined id, the last id.
const VALUES: usize = 8;
const PARENTS: [u16; VALUES] = [NONE, 41, 42, 40, 43, 44, 45, NONE - 1];
const PACKAGES: usize = 3;

/// How many ends there are behind the class.
const BEHIND: usize = 5;

/// Nothing; the later class; it twice; it behind a record that is no class; it behind a malformed one.
fn behind(choice: usize) -> Bytes {
    let later = class_record(43, [NONE; 3], NONE, 1);
    match choice {
        0 => vec![],
        1 => later,
        2 => later.repeat(2),
        3 => [vec![7, 255, 255, 0, 0], later].concat(),
        _ => [class_record(44, [NONE; 3], NONE, 2), later].concat(),
    }
}

/// A class record of each three parents behind two others, asked for all of them where it is accepted.
fn records(mut place: Place) -> Pair {
    let mut table = Table::with_names(&["Aa", "Bb", "Cc", "Dd", "Ee"]);
    table.class(41, NONE, NONE, true);
    table.class(42, 41, NONE, true);
    let parents = [0; 3].map(|_| PARENTS[place.below(VALUES)]);
    let package = [NONE, 44, 45][place.below(PACKAGES)];
    let flag = 2 * place.below(2) as u8;
    let class = class_record(40, parents, package, flag);
    let choice = place.below(BEHIND);
    let front = [table.bytes(), class, behind(choice)].concat();
    let mut rest = Table::new();
    // With a kind 7 behind the classes only another is left.
    if choice != 3 {
        for (name, to) in FUNCTIONS.into_iter().zip([41, 42, 43, 44]) {
            rest.plain(name, &[BOOLEAN], &[(P, 0, named(to))]);
        }
        rest.function(40, METHOD, 2, false, &[BOOLEAN], &[]);
    }
    let object = leaf(&named(40));
    let calls = FUNCTIONS.map(|name| call(name, &[object.clone()]));
    let tree = all([&calls[..], &[method(METHOD, &object, &[])]].concat());
    ([front, rest.bytes()].concat(), question_in(NONE, 43, false, &tree))
}

/// How many records stand in front of a cut one, how many forms that has.
const FRONTS: usize = 3;
const FORMS: usize = 4;

/// A class record cut behind each of its bytes but the last, or whole, with nothing or with another record behind it. In one
/// form it has 8 bytes.
fn cuts(mut place: Place) -> Pair {
    let front = match place.below(FRONTS) {
        0 => vec![],
        1 => class_record(3, [NONE; 3], NONE, 0),
        _ => [class_record(3, [NONE; 3], NONE, 0), class_record(4, [3, NONE, 3], 3, 1)].concat(),
    };
    let class = match place.below(FORMS) {
        0 => class_record(1, [NONE; 3], NONE, 1),
        1 => class_record(1, [3, 4, 5], 2, 0),
        2 => class_record(1, [0; 3], 0, 0),
        _ => vec![2, 1, 0, 3, 0, 255, 255, 1],
    };
    let cut = &class[..class.len().min(1 + place.below(CLASS))];
    let end = if place.below(2) == 0 { vec![] } else { class_record(2, [NONE, NONE, 1], NONE, 1) };
    ([&front, cut, &end].concat(), question(&leaf(&named(1))))
}
