//! Arrays whose size has four bytes beside Arrays whose size has eight (document 02, order 5), which the Rust is not asked with.

use crate::inputs::{table, Filler, Input, Make, FIRST};
use crate::measure::Times;
use reading::bytes::*;
use reading::rng::Rng;

/// The most Arrays with sizes of eight bytes that a type of 192 bytes has in each other, an Int in the innermost.
pub const DEEP: usize = 19;
/// The bytes of a table at most.
const SIZE: usize = 60_000;
/// How many tables take turns.
pub const TABLES: u64 = 4;
/// The names of a table of fields; the owner and the name of each field are among these and the built-in ones.
const NAMES: usize = 20;
/// A name that no function has, and that of a parameter.
const OTHER: u16 = 20;
/// The calls of a list whose parameters are Arrays.
pub const CALLS: usize = 15;

/// How many bytes the size of each Array has.
#[derive(Debug, Clone, Copy, PartialEq, Eq)]
pub enum Width {
    Four,
    Eight,
    /// One or the other at random.
    Either,
}

pub const WIDTHS: [Width; 3] = [Width::Four, Width::Eight, Width::Either];

impl Width {
    pub fn words(self) -> &'static str {
        match self {
            Width::Four => "size of 4 bytes",
            Width::Eight => "size of 8 bytes",
            Width::Either => "size of 4 or 8 bytes at random",
        }
    }

    fn size(self, rng: &mut Rng) -> u64 {
        let (low, high) = (rng.next() >> 32, (rng.next() >> 32).max(1));
        match self == Width::Eight || (self == Width::Either && rng.below(2) == 1) {
            true => low + (high << 32),
            false => low,
        }
    }
}

/// Where the types stand.
#[derive(Debug, Clone, Copy, PartialEq, Eq)]
pub enum Place {
    Fields,
    DeepFields,
    Leaves,
    /// The parameters of one list, and the arguments of its calls.
    Params,
}

pub const PLACES: [Place; 4] = [Place::Fields, Place::DeepFields, Place::Leaves, Place::Params];

impl Place {
    pub fn words(self) -> &'static str {
        match self {
            Place::Fields => "fields of one Array",
            Place::DeepFields => "fields of 19 Arrays",
            Place::Leaves => "leaves of 19 Arrays",
            Place::Params => "overloads that take 19 Arrays",
        }
    }

    /// How many Arrays are in each other.
    fn deep(self) -> usize {
        match self {
            Place::Fields => 1,
            Place::DeepFields | Place::Leaves | Place::Params => DEEP,
        }
    }

    /// How many fields, leaves or overloads there are, whatever the width.
    pub fn count(self) -> usize {
        match self {
            Place::Fields => 3500,
            Place::DeepFields => 300,
            Place::Leaves => 60,
            Place::Params => 290,
        }
    }

    /// What a row has as its time: the judgement alone where calls go over a list, else all.
    pub fn time(self, check: f64, whole: f64) -> f64 {
        match self {
            Place::Params => (whole - check).max(0.0),
            Place::Fields | Place::DeepFields | Place::Leaves => whole,
        }
    }

    /// What the Rust takes for as much: it reads a leaf's type where it makes the tree.
    pub fn rust(self, times: &Times) -> f64 {
        match self {
            Place::Fields | Place::DeepFields => times.rust(),
            Place::Leaves => times.build + times.run,
            Place::Params => times.run,
        }
    }

    /// How many Arrays are in the fields or leaves, or are looked at where each call goes over the list.
    pub fn arrays(self) -> usize {
        let calls = if self == Place::Params { CALLS } else { 1 };
        calls * self.count() * self.deep()
    }
}

/// Types of Arrays at one place.
#[derive(Debug, Clone, Copy, PartialEq, Eq)]
pub struct Arrays {
    pub place: Place,
    pub width: Width,
    /// Tables of other numbers have other sizes.
    number: u64,
}

impl Arrays {
    fn rng(self) -> Rng {
        Rng::new(1, 2, 7 + self.number)
    }

    /// As many Arrays in each other as the place asks for, an Int in the innermost.
    fn of(self, rng: &mut Rng) -> Bytes {
        (0..self.place.deep()).fold(vec![INT], |inner, _| array(Some(self.width.size(rng)), &inner))
    }

    pub fn fill(self, f: &mut Filler) {
        let mut rng = self.rng();
        let types = std::iter::repeat_with(|| self.of(&mut rng)).take(self.place.count());
        match self.place {
            Place::Leaves => {}
            Place::Params => {
                f.names(1);
                types.for_each(|ty| assert!(f.put(|t| t.plain(FIRST, &[INT], &[(OTHER, 0, ty.clone())]))));
            }
            Place::Fields | Place::DeepFields => {
                let ids = f.names(NAMES);
                let keys = (0..ids).flat_map(|owner| (0..ids).map(move |name| (owner, name)));
                types.zip(keys).for_each(|(ty, (owner, name))| assert!(f.put(|t| t.field(owner, name, &ty))));
            }
        }
    }

    /// Under fields one node. Leaves are the arguments of four calls in each other, 64 nodes in all. The calls of a list are
    /// added up; each passes a leaf whose sizes are not those of the parameters.
    fn question(self) -> Bytes {
        let mut rng = Arrays { number: TABLES, ..self }.rng();
        let mut wide = || leaf(&self.of(&mut rng));
        let tree = match self.place {
            Place::Fields | Place::DeepFields => leaf(&[INT]),
            Place::Leaves => (0..4).fold(vec![], |inner, _| {
                let mut values: Vec<_> = std::iter::repeat_with(&mut wide).take(15).collect();
                values.extend((!inner.is_empty()).then_some(inner));
                call(OTHER, &values)
            }),
            Place::Params => {
                let first = call(FIRST, &[wide()]);
                (1..CALLS).fold(first, |sum, _| binary(ADD, &sum, &call(FIRST, &[wide()])))
            }
        };
        question(&tree)
    }
}

/// One question with tables that take turns. "Runs beside the Rust leave kind 22 out."
pub fn turn(place: Place, width: Width) -> Vec<Input> {
    let input = |number| {
        let arrays = Arrays { place, width, number };
        let make = Make::Arrays(arrays);
        let input = Input::new(make, width.words().to_string(), table(make, SIZE), arrays.question());
        Input { rust: width == Width::Four, ..input }
    };
    (0..TABLES).map(input).collect()
}

#[cfg(test)]
mod tests {
    use super::*;
    use reading::words;
    use reading::words::table::split;
    use reading::Said;

    fn all() -> impl Iterator<Item = (Place, Width, Vec<Input>)> {
        PLACES.into_iter().flat_map(|place| WIDTHS.map(|width| (place, width, turn(place, width))))
    }

    /// The kinds of the Arrays in a type.
    fn kinds(ty: &[u8]) -> Bytes {
        let (mut kinds, mut at) = (Vec::new(), 0);
        while ty[at] != INT {
            kinds.push(ty[at]);
            at += if ty[at] == 22 { 10 } else { 6 };
        }
        assert_eq!(at + 1, ty.len());
        kinds
    }

    #[test]
    fn types_are_as_deep_as_is_said() {
        for (place, deep) in [(Place::Fields, 1), (Place::DeepFields, 19), (Place::Leaves, 19), (Place::Params, 19)] {
            for width in WIDTHS {
                let arrays = Arrays { place, width, number: 0 };
                let mut rng = arrays.rng();
                let types: Vec<_> = (0..1000).map(|_| arrays.of(&mut rng)).collect();
                assert!(types.iter().all(|ty| kinds(ty).len() == deep && ty.len() <= 192));
                let kinds: Vec<_> = types.iter().flat_map(|ty| kinds(ty)).collect();
                let large = kinds.iter().filter(|kind| **kind == 22).count();
                match width {
                    Width::Four => assert!(kinds.iter().all(|kind| *kind == 14)),
                    Width::Eight => assert_eq!(large, kinds.len()),
                    Width::Either => assert!(large.abs_diff(kinds.len() / 2) < kinds.len() / 10, "{large}"),
                }
            }
        }
        assert!(1 + 10 * (DEEP + 1) > 192);
    }

    #[test]
    fn each_width_has_as_many_of_them() {
        for (place, _, inputs) in all() {
            let kind = match place {
                Place::Fields | Place::DeepFields => 5,
                Place::Leaves | Place::Params => 4,
            };
            let right = if place == Place::Leaves { 0 } else { place.count() };
            for input in &inputs {
                let found = split(&input.table).iter().filter(|record| record[0] == kind).count();
                assert_eq!(found, right, "{}, {}", place.words(), input.asked);
                assert_eq!(input.question, inputs[0].question);
            }
            assert!(place == Place::Leaves || inputs[0].table != inputs[1].table);
        }
    }

    /// A header, 4 calls and 60 leaves of 19 Arrays.
    #[test]
    fn leaves_are_as_many_as_is_said() {
        for (width, size) in [(Width::Four, 4), (Width::Eight, 8)] {
            let question = &turn(Place::Leaves, width)[0].question;
            assert_eq!(question.len(), 5 + 4 * 4 + 60 * (2 + 19 * (2 + size)));
        }
    }

    /// Sizes do not matter: each call is a tie of all overloads.
    #[test]
    fn the_answer_does_not_depend_on_the_width() {
        for (place, width, inputs) in all() {
            let Input { table, question, .. } = &inputs[0];
            let Said::Judged { diagnostics, .. } = words::said(table, question) else {
                panic!("{}, {}", place.words(), width.words())
            };
            let found: Vec<_> = diagnostics.iter().map(|d| (d.kind, d.number)).collect();
            let right = if place == Place::Params { vec![(19, 290); 15] } else { vec![] };
            assert_eq!(found, right, "{}, {}", place.words(), width.words());
        }
    }

    #[test]
    fn the_rust_is_a_yardstick_as_is_said() {
        for (_, _, inputs) in all() {
            let inside = |input: &Input| oracle::in_domain(&input.table, &input.question) == input.rust;
            assert!(inputs.iter().all(inside), "{}", inputs[0].asked);
        }
    }
}
