//! Calls with several arguments over one list of many overloads.

use crate::inputs::{table, Filler, Input, Make, FIRST};
use reading::bytes::*;

/// The bytes of a table at most.
const SIZE: usize = 60_000;
/// The name of an overload's first parameter; the others follow.
const PARAM: u16 = 20;

/// One list of overloads, each with an Int as its result.
#[derive(Debug, Clone, Copy, PartialEq, Eq)]
pub enum List {
    /// So many parameters, each an Int.
    Ints(usize),
    /// Two parameters whose types differ.
    Differ,
}

/// The types of the list `Differ` in turn. Of an Int and a String, compared both with the first parameter (as before order
/// 4), two in six are equal to it and the others are not accepted; compared each with its own, as well.
const IN_TURN: [[u8; 2]; 3] = [[INT, BOOLEAN], [BOOLEAN, STRING], [STRING, INT]];

impl List {
    pub fn words(self) -> &'static str {
        match self {
            List::Ints(1) => "overloads of 1 parameter",
            List::Ints(2) => "overloads of 2 parameters",
            List::Ints(_) => "overloads of 16 parameters",
            List::Differ => "overloads of 2 parameters, types differ",
        }
    }

    /// Fills the table. The first overload of `Differ` takes anything, and is the only one that matches.
    pub fn fill(self, f: &mut Filler) {
        f.names(1);
        match self {
            List::Ints(count) => while f.put(|t| overload(t, &vec![INT; count])) {},
            List::Differ => {
                f.put(|t| overload(t, &[ANY, ANY]));
                IN_TURN.iter().cycle().take_while(|types| f.put(|t| overload(t, *types))).for_each(drop);
            }
        }
    }

    /// The type of each argument but the first, which is the call in it.
    fn others(self) -> u8 {
        match self {
            List::Ints(_) => INT,
            List::Differ => STRING,
        }
    }
}

fn overload(t: &mut Table, types: &[u8]) {
    let params: Vec<Param> = (PARAM..).zip(types).map(|(name, ty)| (name, 0, vec![*ty])).collect();
    t.plain(FIRST, &[INT], &params);
}

/// A question of calls in each other, each the first argument of the one around it. A call has as many arguments as each
/// overload has parameters; the named ones come first.
#[derive(Debug, Clone, Copy)]
pub struct Call {
    pub list: List,
    pub calls: usize,
    pub named: usize,
    pub unnamed: usize,
}

const fn of(list: List, calls: usize, named: usize, unnamed: usize) -> Call {
    Call { list, calls, named, unnamed }
}

/// Those that are timed. More calls of 16 arguments than here have over 64 nodes.
pub const CALLS: [Call; 8] = [
    of(List::Ints(1), 20, 0, 1),
    of(List::Ints(2), 20, 0, 2),
    of(List::Ints(16), 3, 0, 16),
    of(List::Differ, 20, 0, 2),
    of(List::Ints(2), 12, 2, 0),
    of(List::Ints(2), 12, 1, 1),
    of(List::Ints(16), 1, 16, 0),
    of(List::Ints(16), 2, 8, 8),
];

impl Call {
    pub fn arguments(&self) -> usize {
        self.named + self.unnamed
    }

    /// The calls and their arguments in words.
    pub fn asked(&self) -> String {
        let arguments = match (self.named, self.unnamed) {
            (0, unnamed) => format!("{unnamed} unnamed"),
            (named, 0) => format!("{named} named"),
            (named, unnamed) => format!("{named} named and {unnamed} unnamed"),
        };
        format!("{} call{}, {arguments}", self.calls, if self.calls == 1 { "" } else { "s" })
    }

    fn question(&self) -> Bytes {
        let other = leaf(&[self.list.others()]);
        let around = |first: Bytes| {
            let values = [first].into_iter().chain(std::iter::repeat_n(other.clone(), self.arguments() - 1));
            let name = |(value, place): (Bytes, u16)| match usize::from(place) < self.named {
                true => named_arg(PARAM + place, &value),
                false => value,
            };
            call(FIRST, &values.zip(0..).map(name).collect::<Vec<_>>())
        };
        question(&(0..self.calls).fold(leaf(&[INT]), |tree, _| around(tree)))
    }

    /// Since order 4 the Rust is a yardstick only where a call has at most one unnamed argument.
    pub fn input(&self) -> Input {
        let make = Make::Overloads(self.list);
        let input = Input::new(make, self.asked(), table(make, SIZE), self.question());
        Input { rust: self.unnamed <= 1, ..input }
    }
}

#[cfg(test)]
mod tests {
    use super::*;
    use crate::inputs::counts;
    use reading::words;
    use reading::{Diagnostic, Said};

    fn said(call: &Call) -> (Bytes, bool, Vec<Diagnostic>) {
        let Input { table, question, .. } = call.input();
        match words::said(&table, &question) {
            Said::Judged { ty, passed, diagnostics } => (ty, passed, diagnostics),
            Said::Refused(number) => panic!("{}: {number}", call.asked()),
        }
    }

    #[test]
    fn lists_are_as_long_as_can_be() {
        let lists = CALLS.map(|call| (call.list, counts(&call.input().table).1));
        let right = |list| match list {
            List::Ints(1) => 4613,
            List::Ints(2) | List::Differ => 3527,
            List::Ints(_) => 821,
        };
        assert_eq!(lists, lists.map(|(list, _)| (list, right(list))));
    }

    /// By either rule: a tie of them all, or the one overload that takes anything.
    #[test]
    fn the_answer_is_that_of_both_rules() {
        for call in CALLS {
            let (ty, passed, diagnostics) = said(&call);
            assert_eq!(ty, [INT]);
            assert_eq!(passed, call.list == List::Differ, "{}", call.asked());
            assert_eq!(diagnostics.len(), if passed { 0 } else { call.calls });
            let many = counts(&call.input().table).1;
            assert!(diagnostics.iter().all(|d| (d.kind, usize::from(d.number)) == (19, many)), "{}", call.asked());
        }
    }

    #[test]
    fn the_rust_is_a_yardstick_as_is_said() {
        for call in CALLS {
            let input = call.input();
            assert_eq!(oracle::in_domain(&input.table, &input.question), input.rust, "{}", input.asked);
        }
    }

    #[test]
    fn each_call_is_in_words() {
        let words = CALLS.map(|call| call.asked());
        assert_eq!((words[0].as_str(), words[4].as_str()), ("20 calls, 1 unnamed", "12 calls, 2 named"));
        assert_eq!((words[6].as_str(), words[7].as_str()), ("1 call, 16 named", "2 calls, 8 named and 8 unnamed"));
    }
}
