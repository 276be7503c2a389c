//! A sweep over whom an argument is compared with (document 02, order 4): lists of one or two overloads with up to two
//! parameters, called with up to three arguments.
//!
//! A parameter is p or q, of type Int or String (of one overload alone also Any), required, with a default or vararg. An
//! argument is unnamed, named p, q or otherwise, of type Int or String (of one overload alone also Any). Of lists that are
//! the same but for p and q, or for Int and String, in all of the list and its calls, one is taken: the first parameter of
//! the first overload is p, and its first type that is not Any is Int. Three arguments are given only where the last
//! parameter of each overload is vararg: any other does not fit in number, and a list with it is as without. Nor has a
//! parameter a default then, which would change nothing in an overload of two that takes three.

use crate::bytes::*;
use std::sync::OnceLock;

type Pair = (Bytes, Bytes);
type Params = Vec<Param>;

const P: u16 = 20;
const Q: u16 = 21;
const UNKNOWN: u16 = 22;
const F: u16 = 23;

/// A parameter's flags; below, those where three arguments are given.
const FLAGS: [u8; 3] = [0, DEFAULT, VARARG];
const GIVEN: [u8; 2] = [0, VARARG];

/// Every overload of up to two parameters.
fn overloads(types: &[u8], flags: &[u8]) -> Vec<Params> {
    let of = |name: u16| -> Params {
        types.iter().flat_map(|ty| flags.iter().map(move |flag| (name, *flag, vec![*ty]))).collect()
    };
    let mut all: Vec<Params> = vec![vec![]];
    for (first, second) in [(P, Q), (Q, P)] {
        all.extend(of(first).into_iter().map(|one| vec![one]));
        for one in of(first) {
            all.extend(of(second).into_iter().map(|other| vec![one.clone(), other]));
        }
    }
    all
}

/// Whether an overload may stand first: of those that are the same but for p and q, or for Int and String, one.
fn first(params: &Params) -> bool {
    let ty = params.iter().map(|p| p.2[0]).find(|ty| *ty != ANY);
    params.first().is_none_or(|p| p.0 == P) && ty.is_none_or(|ty| ty == INT)
}

/// Whether three arguments fit.
fn open(params: &Params) -> bool {
    params.last().is_some_and(|p| p.1 == VARARG)
}

/// Arguments of every kind: `count` of them.
fn arguments(types: &[u8], count: usize) -> Vec<Vec<Bytes>> {
    let one: Vec<Bytes> = types
        .iter()
        .flat_map(|ty| {
            let value = leaf(&[*ty]);
            [value.clone(), named_arg(P, &value), named_arg(Q, &value), named_arg(UNKNOWN, &value)]
        })
        .collect();
    let mut all = vec![vec![]];
    for _ in 0..count {
        all = all.iter().flat_map(|row| one.iter().map(|a| [&row[..], std::slice::from_ref(a)].concat())).collect();
    }
    all
}

/// Lists, each of which is called with each of some rows of arguments.
struct Part {
    lists: Vec<Vec<Params>>,
    rows: Vec<Vec<Bytes>>,
}

fn parts() -> &'static [Part; 4] {
    static PARTS: OnceLock<[Part; 4]> = OnceLock::new();
    PARTS.get_or_init(|| {
        let two = [INT, STRING];
        let three = [INT, STRING, ANY];
        let up_to_two = |types: &[u8]| (0..=2).flat_map(|count| arguments(types, count)).collect();
        let alone = |all: Vec<Params>| all.into_iter().filter(first).map(|params| vec![params]).collect();
        let beside = |all: Vec<Params>| {
            let firsts: Vec<&Params> = all.iter().filter(|params| first(params)).collect();
            firsts.iter().flat_map(|a| all.iter().map(|b| vec![(*a).clone(), b.clone()])).collect()
        };
        let open = |types: &[u8]| overloads(types, &GIVEN).into_iter().filter(open).collect();
        [
            Part { lists: alone(overloads(&three, &FLAGS)), rows: up_to_two(&three) },
            Part { lists: alone(open(&three)), rows: arguments(&three, 3) },
            Part { lists: beside(overloads(&two, &FLAGS)), rows: up_to_two(&two) },
            Part { lists: beside(open(&two)), rows: arguments(&two, 3) },
        ]
    })
}

pub fn own_parameters_count() -> usize {
    parts().iter().map(|part| part.lists.len() * part.rows.len()).sum()
}

/// The first overload gives a Char, the second a Boolean.
pub fn own_parameters(at: usize) -> Pair {
    let mut at = at;
    for Part { lists, rows } in parts() {
        if at < lists.len() * rows.len() {
            let mut table = Table::new();
            for (params, result) in lists[at / rows.len()].iter().zip([CHAR, BOOLEAN]) {
                table.plain(F, &[result], params);
            }
            return (table.bytes(), question(&call(F, &rows[at % rows.len()])));
        }
        at -= lists.len() * rows.len();
    }
    unreachable!("the sweep has no such case")
}
