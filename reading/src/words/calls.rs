//! `check_call_args` on a list that is not empty, behind the suspend check and the arguments; with document 02's order 4,
//! "each argument against its own parameter".

use super::parameter::param_accepts;
use super::question::{Shape, Tree};
use super::rulings::{self, Rulings};
use super::symbols::{Function, Param, Symbols};
use super::types::ERROR;
use crate::answer::Diagnostic;

/// An argument: its node, its name if it is a named one, its type.
#[derive(Debug, Clone, Copy)]
pub struct Argument<'a> {
    pub node: usize,
    pub name: Option<u16>,
    pub ty: &'a [u8],
}

impl<'a> Argument<'a> {
    pub fn row(arguments: &[Tree], types: &'a [Vec<u8>]) -> Vec<Argument<'a>> {
        let one = |(tree, ty): (&Tree, &'a Vec<u8>)| {
            let name = if let Shape::Named(name, _) = tree.shape { Some(name) } else { None };
            Argument { node: tree.number, name, ty }
        };
        arguments.iter().zip(types).map(one).collect()
    }
}

/// "Builtins drop out beside any non-builtin."
pub fn usable<'a>(list: &'a [Function<'a>]) -> Vec<&'a Function<'a>> {
    let any_own = list.iter().any(|f| !f.builtin);
    list.iter().filter(|f| !any_own || !f.builtin).collect()
}

/// Whether an overload fits in number: at least the required arguments, and no more than there are
/// parameters unless the last is vararg.
pub fn fits(function: &Function, count: usize) -> bool {
    let params = &function.params;
    let required = params.iter().filter(|p| !p.default && !p.vararg).count();
    required <= count && (count <= params.len() || last_is_vararg(params))
}

fn last_is_vararg(params: &[Param]) -> bool {
    params.last().is_some_and(|p| p.vararg)
}

/// "An exact match scores 2, an accepted one 1"; none where the type is not accepted.
fn worth(symbols: &Symbols, param: &Param, ty: &[u8]) -> Option<usize> {
    if ty == param.ty {
        return Some(2);
    }
    param_accepts(symbols, param.ty, ty, param.vararg).then_some(1)
}

pub fn knows(function: &Function, name: u16) -> bool {
    function.params.iter().any(|p| p.name == name)
}

/// The parameter that each argument is compared with, in argument order; none where it gets none. Document 02, order 4:
/// "the unnamed arguments take, in turn, the parameters that no argument names, each parameter once"; "a named argument is
/// compared with the parameter of its name".
pub fn own<'f>(function: &'f Function<'f>, arguments: &[Argument]) -> Vec<Option<&'f Param<'f>>> {
    let params = &function.params;
    let named = |param: &&Param| arguments.iter().any(|a| a.name == Some(param.name));
    let mut free = params.iter().filter(|p| !named(p));
    let one = |argument: &Argument| match argument.name {
        Some(name) => params.iter().find(|p| p.name == name),
        None => free.next(),
    };
    arguments.iter().map(one).collect()
}

/// The score of an overload that fits in number; none where it does not match: "scoring .. use[s] this". "An unnamed
/// argument left without a parameter, as only a vararg allows, scores 1".
pub fn score(symbols: &Symbols, function: &Function, arguments: &[Argument]) -> Option<usize> {
    let each = arguments.iter().zip(own(function, arguments));
    each.map(|(argument, param)| match (argument.name, param) {
        (_, Some(param)) => worth(symbols, param, argument.ty),
        (Some(_), None) => None,
        (None, None) => Some(1),
    })
    .sum()
}

/// The positions from 1 of what "the check of a single unmatched overload, in argument order," finds. An argument "left
/// without a parameter .. is not reported; an unknown name adds no mismatch". Any and Error are accepted everywhere, so
/// they are never found.
pub fn mismatches(symbols: &Symbols, function: &Function, arguments: &[Argument]) -> Vec<usize> {
    let each = arguments.iter().zip(own(function, arguments)).enumerate();
    let differs = |(_, (argument, param)): &(usize, (&Argument, Option<&Param>))| {
        param.is_some_and(|param| !param_accepts(symbols, param.ty, argument.ty, param.vararg))
    };
    each.filter(differs).map(|(i, _)| i + 1).collect()
}

/// What a call gives.
#[derive(Debug, Default)]
pub struct Resolved {
    pub ty: Vec<u8>,
    pub reports: Vec<Diagnostic>,
    pub rulings: Rulings,
}

impl Resolved {
    fn report(&mut self, kind: u8, node: usize, number: usize) {
        self.reports.push(Diagnostic { kind, node: node as u16, number: number as u16 });
    }

    fn of(mut self, ty: &[u8], ruling: &'static str) -> Resolved {
        self.ty = ty.to_vec();
        self.rulings.push(ruling);
        self
    }
}

pub fn resolve(symbols: &Symbols, list: &[Function], node: usize, arguments: &[Argument]) -> Resolved {
    let mut out = Resolved::default();
    let usable = usable(list);
    if usable.len() < list.len() {
        out.rulings.push("builtins dropped out");
    }
    let own = !usable[0].builtin;
    let fitting: Vec<&Function> = usable.into_iter().filter(|f| fits(f, arguments.len())).collect();
    if fitting.is_empty() {
        // "15 argument count (arguments)", which is said of builtins nowhere.
        if own {
            out.report(15, node, arguments.len());
        }
        return out.of(&[ERROR], if own { "none fits" } else { "none fits, all builtin" });
    }
    // "An unknown named argument is reported once per overload that fits in number."
    for function in &fitting {
        for (i, argument) in arguments.iter().enumerate() {
            if argument.name.is_some_and(|name| !knows(function, name)) {
                out.report(16, argument.node, i + 1);
            }
        }
    }
    let scores: Vec<Option<usize>> = fitting.iter().map(|f| score(symbols, f, arguments)).collect();
    match scores.iter().flatten().max() {
        None => unmatched(symbols, &fitting, node, arguments, out),
        Some(best) => {
            // "The first highest wins; ties are reported with their count."
            let highest: Vec<usize> = (0..scores.len()).filter(|i| scores[*i] == Some(*best)).collect();
            rulings::of_match(symbols, &fitting, &scores, highest[0], arguments, &mut out.rulings);
            let ruling = match (highest.len(), fitting.len()) {
                (1, 1) => "one fits and matches",
                (1, _) => "one wins",
                (ties, _) => {
                    out.report(19, node, ties);
                    "a tie"
                }
            };
            out.of(fitting[highest[0]].result, ruling)
        }
    }
}

/// No overload matches: of the only one that fits the mismatches are reported, of several there is "18 no match".
fn unmatched(
    symbols: &Symbols,
    fitting: &[&Function],
    node: usize,
    arguments: &[Argument],
    mut out: Resolved,
) -> Resolved {
    let [only] = fitting else {
        out.report(18, node, 0);
        return out.of(&[ERROR], "no match");
    };
    let found = mismatches(symbols, only, arguments);
    rulings::of_mismatches(symbols, only, arguments, &found, &mut out.rulings);
    for position in &found {
        out.report(17, arguments[position - 1].node, *position);
    }
    out.of(only.result, if found.is_empty() { "one fits, an unknown name alone" } else { "one fits, with mismatches" })
}
