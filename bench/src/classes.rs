//! Classes and what is asked of them (document 02, orders 2 and 6): tables whose classes have parents, and some whose classes
//! have none. The Rust has no such rule.

use crate::inputs::{reordered, shuffle, Filler, Input, Make, FIRST};
use reading::bytes::*;
use reading::name::NONE;
use reading::rng::Rng;
use reading::words::table::split;
use reading::words::types::two_bytes;

/// The first of the classes; the last is `FIRST`.
const TOP: u16 = FIRST + 1;
/// The name of a function's first parameter.
const PARAM: u16 = 20;
/// The calls in each other in a question of 8 nodes.
pub const CALLS: usize = 7;
/// The arguments of a call at most.
pub const MOST: usize = 16;

/// What the parents of each class are. The classes are in a row, from the top to the lowest.
#[derive(Debug, Clone, Copy, PartialEq, Eq)]
pub enum Parents {
    Nothing,
    /// The top is the superclass of each other.
    Top,
    /// The class before it is its superclass.
    Chain,
    /// The class before it is its superclass, and the two before that are its interfaces.
    Tower,
}

/// What stands behind the classes, and what is asked.
#[derive(Debug, Clone, Copy, PartialEq, Eq)]
pub enum Asked {
    /// One function, which takes the top and gives the lowest class: calls in each other, the innermost of the lowest.
    One,
    /// A list of as many bytes as the classes with their names, each as that one function. Where the top is above no class, the
    /// last takes the lowest.
    List,
    /// Such a list, with 16 parameters each: one call with 16 arguments of the lowest class.
    Same,
    /// One call with the 16 lowest classes as its arguments.
    Others,
    /// No function: the top and the lowest class are compared, either way round.
    Equality,
}

#[derive(Debug, Clone, Copy, PartialEq, Eq)]
pub struct Family {
    pub parents: Parents,
    pub asked: Asked,
}

const fn of(parents: Parents, asked: Asked) -> Family {
    Family { parents, asked }
}

/// Those that are timed.
pub const FAMILIES: [Family; 11] = [
    of(Parents::Chain, Asked::One),
    of(Parents::Tower, Asked::One),
    of(Parents::Chain, Asked::List),
    of(Parents::Tower, Asked::List),
    of(Parents::Top, Asked::One),
    of(Parents::Nothing, Asked::List),
    of(Parents::Chain, Asked::Same),
    of(Parents::Chain, Asked::Others),
    of(Parents::Tower, Asked::Others),
    of(Parents::Chain, Asked::Equality),
    of(Parents::Tower, Asked::Equality),
];

impl Family {
    /// Those that the library can be asked.
    pub fn all() -> impl Iterator<Item = Family> {
        let known = |family: &Family| match family.parents {
            Parents::Nothing => true,
            Parents::Top | Parents::Chain => cfg!(feature = "subclass"),
            Parents::Tower => cfg!(feature = "interface"),
        };
        FAMILIES.into_iter().filter(known)
    }

    pub fn words(self) -> &'static str {
        match (self.parents, self.asked) {
            (Parents::Chain, Asked::One) => "one chain of classes, one function that takes its top",
            (Parents::Chain, Asked::List) => "one chain of classes, functions that take its top",
            (Parents::Chain, Asked::Same) => "one chain of classes, a call with its lowest class 16 times",
            (Parents::Chain, Asked::Others) => "one chain of classes, a call with its 16 lowest classes",
            (Parents::Chain, Asked::Equality) => "one chain of classes, equality of its ends",
            (Parents::Tower, Asked::One) => "a tower of classes, one function that takes its top",
            (Parents::Tower, Asked::List) => "a tower of classes, functions that take its top",
            (Parents::Tower, Asked::Same) => "a tower of classes, a call with its lowest class 16 times",
            (Parents::Tower, Asked::Others) => "a tower of classes, a call with its 16 lowest classes",
            (Parents::Tower, Asked::Equality) => "a tower of classes, equality of its ends",
            (Parents::Top, _) => "classes below one class, one function that takes it",
            (Parents::Nothing, _) => "classes without parents, functions that take another class",
        }
    }

    /// Whether it has a bar: chains, towers, and half classes and half functions that take their top.
    pub fn has_bar(self) -> bool {
        matches!(self.parents, Parents::Chain | Parents::Tower) && matches!(self.asked, Asked::One | Asked::List)
    }

    pub fn has_superclasses(self) -> bool {
        self.parents != Parents::Nothing
    }

    /// How many parameters each function has.
    fn params(self) -> u16 {
        match self.asked {
            Asked::One | Asked::List => 1,
            Asked::Same | Asked::Others => MOST as u16,
            Asked::Equality => 0,
        }
    }

    /// A function that takes a class, as often as it has parameters, and gives the lowest.
    fn function(self, t: &mut Table, takes: u16) {
        let params: Vec<Param> = (0..self.params()).map(|i| (PARAM + i, 0, named(takes))).collect();
        t.plain(FIRST, &named(FIRST), &params);
    }

    /// The bytes of such a function.
    fn function_bytes(self) -> usize {
        let mut t = Table::new();
        self.function(&mut t, TOP);
        t.bytes().len()
    }

    /// The bytes of a table that are kept for its classes with their names.
    fn share(self, size: usize) -> usize {
        match self.asked {
            Asked::One => size - self.function_bytes(),
            Asked::List | Asked::Same | Asked::Others => size / 2,
            Asked::Equality => size,
        }
    }

    /// The ids of the classes between the top and the lowest are in a random order.
    pub fn fill(self, f: &mut Filler, size: usize) {
        let ids = f.names(self.share(size) / (NAME + CLASS));
        let mut between: Vec<u16> = (TOP + 1..ids).collect();
        shuffle(&mut between, &mut Rng::new(1, 2, 6));
        let row = [&[TOP][..], &between, &[FIRST]].concat();
        for (place, class) in row.iter().enumerate() {
            f.put(|t| t.class_below(*class, self.parents_of(&row[..place]), NONE, true));
        }
        self.functions(f);
    }

    /// The superclass and the interfaces of the class behind these.
    fn parents_of(self, before: &[u16]) -> [u16; 3] {
        let back = |steps: usize| before.iter().rev().nth(steps).copied().unwrap_or(NONE);
        match self.parents {
            Parents::Nothing => [NONE; 3],
            Parents::Top => [before.first().copied().unwrap_or(NONE), NONE, NONE],
            Parents::Chain => [back(0), NONE, NONE],
            Parents::Tower => [0, 1, 2].map(back),
        }
    }

    fn functions(self, f: &mut Filler) {
        let most = match self.asked {
            Asked::One => 1,
            Asked::List | Asked::Same | Asked::Others => usize::MAX,
            Asked::Equality => 0,
        };
        let kept = if self.has_superclasses() { 0 } else { self.function_bytes() };
        f.keep(kept);
        (0..most).take_while(|_| f.put(|t| self.function(t, TOP))).for_each(drop);
        f.give(kept);
        if !self.has_superclasses() {
            f.put(|t| self.function(t, FIRST));
        }
    }

    /// How many nodes the question has, in words.
    fn asked_in_words(self) -> &'static str {
        match self.asked {
            Asked::One | Asked::List | Asked::Equality => "8 nodes",
            Asked::Same | Asked::Others => "one call with 16 arguments",
        }
    }

    fn question(self, table: &[u8]) -> Bytes {
        let class = |id: u16| leaf(&named(id));
        let equal = |a: u16, b: u16| binary(EQ, &class(a), &class(b));
        question(&match self.asked {
            Asked::One | Asked::List => (0..CALLS).fold(class(FIRST), |inner, _| call(FIRST, &[inner])),
            Asked::Same => call(FIRST, &vec![class(FIRST); MOST]),
            Asked::Others => {
                let row = row(table);
                call(FIRST, &row[row.len() - MOST..].iter().map(|id| class(*id)).collect::<Vec<_>>())
            }
            Asked::Equality => unary(NOT, &binary(AND, &equal(FIRST, TOP), &equal(TOP, FIRST))),
        })
    }

    /// One question with tables that take turns.
    pub fn turn(self, size: usize) -> Vec<Input> {
        let make = Make::Family(self);
        let input = |table: Vec<u8>| {
            let question = self.question(&table);
            Input::new(make, self.asked_in_words().to_string(), table, question)
        };
        reordered(make, size).map(input).collect()
    }
}

/// The classes of a table in the order of their records.
fn row(table: &[u8]) -> Vec<u16> {
    let records = split(table);
    records.iter().filter(|record| record[0] == 2).map(|record| two_bytes(record, 1)).collect()
}

#[cfg(test)]
mod tests {
    use super::*;
    use crate::inputs::{counts, table, tests::answered};
    use reading::words;
    use reading::Said;

    fn tables(size: usize) -> impl Iterator<Item = (Family, Vec<u8>)> {
        FAMILIES.into_iter().map(move |family| (family, table(Make::Family(family), size)))
    }

    /// The parents of each class, in the order of the records.
    fn parents(table: &[u8]) -> Vec<[u16; 3]> {
        class_places(table).into_iter().map(|place| reading::bytes::parents(table, place)).collect()
    }

    #[test]
    fn classes_have_the_parents_that_are_said() {
        for (family, table) in tables(7500) {
            let (row, parents) = (row(&table), parents(&table));
            assert_eq!((row[0], row[row.len() - 1], parents[0]), (TOP, FIRST, [NONE; 3]));
            for (place, parents) in parents.iter().enumerate().skip(3) {
                let right = match family.parents {
                    Parents::Nothing => [NONE; 3],
                    Parents::Top => [TOP, NONE, NONE],
                    Parents::Chain => [row[place - 1], NONE, NONE],
                    Parents::Tower => [row[place - 1], row[place - 2], row[place - 3]],
                };
                assert_eq!(*parents, right, "{}", family.words());
            }
            assert_eq!(oracle::table::has_superclass(&table), family.has_superclasses());
        }
    }

    #[test]
    fn tables_have_so_many_classes_and_functions() {
        let counted = |family: Family, size| counts(&table(Make::Family(family), size));
        for (size, right) in [(1875, (24, 56)), (60_000, (789, 1765))] {
            assert_eq!(counted(of(Parents::Chain, Asked::List), size), right);
            assert_eq!(counted(of(Parents::Tower, Asked::List), size), right);
            assert_eq!(counted(of(Parents::Nothing, Asked::List), size), right);
        }
        assert_eq!(counted(of(Parents::Tower, Asked::One), 60_000), (1578, 1));
        assert_eq!(counted(of(Parents::Chain, Asked::Same), 60_000), (789, 280));
        assert_eq!(counted(of(Parents::Tower, Asked::Equality), 60_000), (1578, 0));
    }

    /// Calls are ties of all functions, where there are two or more that fit; nothing else is reported.
    #[test]
    fn the_answer_is_that_of_the_rule() {
        for (family, table) in tables(1875) {
            let Said::Judged { ty, passed, diagnostics } = words::said(&table, &family.question(&table)) else {
                panic!("{}", family.words())
            };
            let found: Vec<_> = diagnostics.iter().map(|d| (d.kind, usize::from(d.number))).collect();
            let functions = counts(&table).1;
            let ties = match (family.parents, family.asked) {
                (Parents::Nothing, _) | (_, Asked::One | Asked::Equality) => 0,
                (_, Asked::List) => CALLS,
                (_, Asked::Same | Asked::Others) => 1,
            };
            assert_eq!(found, vec![(19, functions); ties], "{}", family.words());
            assert_eq!(passed, ties == 0, "{}", family.words());
            assert_eq!(ty, if family.asked == Asked::Equality { vec![BOOLEAN] } else { named(FIRST) });
        }
    }

    /// Without the parents each answer is another.
    #[test]
    fn the_answer_needs_the_parents() {
        for (family, table) in tables(1875).filter(|(family, _)| family.has_superclasses()) {
            let question = family.question(&table);
            assert_ne!(words::said(&without_parents(&table), &question), words::said(&table, &question));
        }
    }

    #[test]
    fn tables_of_a_turn_differ_in_the_order_of_their_records() {
        for family in Family::all() {
            let turn = family.turn(1875);
            assert_eq!(turn.len(), 128);
            assert!(turn
                .iter()
                .all(|input| input.question == turn[0].question && row(&input.table) == row(&turn[0].table)));
            assert!(turn.iter().skip(1).all(|input| input.table != turn[0].table));
            assert_eq!(answered(&turn[1]), answered(&turn[0]), "{}", family.words());
        }
    }

    #[test]
    fn words_tell_families_apart() {
        let words: std::collections::BTreeSet<_> = FAMILIES.iter().map(|family| family.words()).collect();
        assert_eq!(words.len(), FAMILIES.len());
        assert_eq!(FAMILIES.iter().filter(|family| family.has_bar()).count(), 4);
    }
}
