//! What decided a call, and what took part in it; where a way along superclasses and interfaces decided. Counted by the
//! coverage run, no part of any answer.

use super::access::{is_subclass, PROTECTED};
use super::assign::can_assign_to;
use super::binary::check_binary;
use super::calls::{own, Argument};
use super::operator::{class_with_method, METHODS};
use super::parameter::{is_type_variable, param_accepts};
use super::question::Question;
use super::symbols::{Function, Param, Symbols};
use super::types::{inner, is_array, named_id, LARGE_ARRAY, LIST, NULLABLE};

pub type Rulings = Vec<&'static str>;

/// What the overload that was chosen shows.
pub fn of_match(
    symbols: &Symbols,
    fitting: &[&Function],
    scores: &[Option<usize>],
    chosen: usize,
    arguments: &[Argument],
    seen: &mut Rulings,
) {
    let params = &fitting[chosen].params;
    let mut saw = |what: &'static str, so: bool| {
        if so {
            seen.push(what);
        }
    };
    saw("a later overload beats a match", scores[..chosen].iter().any(|s| s.is_some()));
    let lower = |s: &Option<usize>| s.is_some() && *s < scores[chosen];
    saw("an earlier overload beats a match", scores[chosen + 1..].iter().any(lower));
    saw("a match with score 0", scores[chosen] == Some(0));
    let names: Vec<u16> = arguments.iter().filter_map(|a| a.name).collect();
    saw("a match with named arguments", !names.is_empty());
    saw("a match with a repeated name", (1..names.len()).any(|i| names[..i].contains(&names[i])));
    saw("a match with parameters left out", arguments.len() < params.len());
    saw("a match with more arguments than parameters", arguments.len() > params.len());
    saw("a match with a vararg that is not last", params.iter().rev().skip(1).any(|p| p.vararg));
    let known = |f: &Function, name: &u16| f.params.iter().any(|p| p.name == *name);
    saw("a match beside an unknown name", fitting.iter().any(|f| names.iter().any(|n| !known(f, n))));
    saw("a name behind an unnamed argument", named_behind_unnamed(arguments));
    let mut unnamed = 0;
    for (argument, param) in arguments.iter().zip(own(fitting[chosen], arguments)) {
        unnamed += argument.name.is_none() as usize;
        let Some(param) = param else {
            saw("a match with an argument left over", true);
            continue;
        };
        saw("a match with a second unnamed argument", argument.name.is_none() && unnamed > 1);
        saw("a match with a default taken", argument.name.is_none() && param.default);
        let exact = argument.ty == param.ty;
        saw("an exact match", exact);
        saw("an accepted match", !exact);
        saw("a subclass accepted", takes_subclass(symbols, param, argument));
        saw("a class accepted through an interface", takes_interface(symbols, param, argument));
        saw("a class accepted along two ways", takes_along_two_ways(symbols, param, argument));
        let kinds = (argument.ty[0], param.ty[0]);
        saw("an Array of another width accepted", is_array(kinds.0) && is_array(kinds.1) && kinds.0 != kinds.1);
        saw("a List accepted by a large Array", kinds == (LIST, LARGE_ARRAY));
        saw("a type variable accepted", !exact && is_type_variable(symbols, param.ty));
        saw("a vararg accepted", !exact && param.vararg && !param_accepts(symbols, param.ty, argument.ty, false));
    }
}

fn named_behind_unnamed(arguments: &[Argument]) -> bool {
    arguments.iter().skip_while(|a| a.name.is_some()).any(|a| a.name.is_some())
}

/// What the mismatches of the only overload that fits show; `found` are their positions.
pub fn of_mismatches(
    symbols: &Symbols,
    function: &Function,
    arguments: &[Argument],
    found: &[usize],
    seen: &mut Rulings,
) {
    let mut saw = |what: &'static str, so: bool| {
        if so && !found.is_empty() {
            seen.push(what);
        }
    };
    let name = |position: &usize| arguments[position - 1].name;
    let own: Vec<(&Argument, Option<&Param>)> = arguments.iter().zip(own(function, arguments)).collect();
    saw("a mismatch of a named argument", found.iter().any(|p| name(p).is_some()));
    saw("a mismatch of an unnamed argument", found.iter().any(|p| name(p).is_none()));
    saw("a mismatch beside an unknown name", own.iter().any(|(a, p)| a.name.is_some() && p.is_none()));
    saw("a mismatch beside an argument left over", own.iter().any(|(a, p)| a.name.is_none() && p.is_none()));
    let subclass = |(a, p): &(&Argument, Option<&Param>)| p.is_some_and(|p| takes_subclass(symbols, p, a));
    saw("a mismatch beside a subclass accepted", own.iter().any(subclass));
}

/// Whether an argument goes to a parameter by a way up alone.
pub fn takes_subclass(symbols: &Symbols, param: &Param, argument: &Argument) -> bool {
    let goes = |symbols: &Symbols| can_assign_to(symbols, argument.ty, param.ty);
    goes(symbols) && !goes(&Symbols::default())
}

/// The class in a type, behind what assignability asks itself through.
fn core(ty: &[u8]) -> Option<u16> {
    match ty[0] {
        kind if is_array(kind) || kind == LIST || kind == NULLABLE => core(inner(ty)),
        _ => named_id(ty),
    }
}

/// The classes of an argument and of a parameter that it goes to by a way up alone.
fn way(symbols: &Symbols, param: &Param, argument: &Argument) -> Option<(u16, u16)> {
    let (class, above) = core(argument.ty).zip(core(param.ty))?;
    takes_subclass(symbols, param, argument).then_some((class, above))
}

fn takes_interface(symbols: &Symbols, param: &Param, argument: &Argument) -> bool {
    way(symbols, param, argument).is_some_and(|(class, above)| !is_subclass(symbols, class, above))
}

/// Whether two of the classes on the way have the one that is reached as a parent.
fn takes_along_two_ways(symbols: &Symbols, param: &Param, argument: &Argument) -> bool {
    way(symbols, param, argument).is_some_and(|(class, above)| {
        let from = symbols.reached_from(class).into_iter().chain([class]);
        from.filter(|from| symbols.parents(*from).any(|parent| parent == above)).count() > 1
    })
}

/// What a way up decided of a binary operator, or an operator method that is reached through an interface alone.
pub fn of_binary(symbols: &Symbols, op: u8, left: &[u8], right: &[u8]) -> Option<&'static str> {
    match class_with_method(symbols, op, left) {
        Some(class) if named_id(left) != Some(class) => Some("an operator method of a superclass"),
        Some(_) => None,
        None if method_of_an_interface(symbols, op, left) => Some("an operator method of an interface, not taken"),
        None => {
            let quiet = |symbols: &Symbols| check_binary(symbols, op, left, right).reports.is_empty();
            (quiet(symbols) && !quiet(&Symbols::default())).then_some("a comparison with a class above")
        }
    }
}

fn method_of_an_interface(symbols: &Symbols, op: u8, left: &[u8]) -> bool {
    let Some(class) = named_id(left).filter(|_| op < METHODS) else { return false };
    let has = |above: &u16| symbols.operators(*above).is_some_and(|mask| mask >> op & 1 == 1);
    symbols.reached_from(class).iter().any(|above| has(above) && !is_subclass(symbols, class, *above))
}

/// What a climb decided of access to a member or function of this visibility, or that a way through an interface did not.
pub fn of_access(symbols: &Symbols, question: &Question, visibility: u8, owner: u16) -> Option<&'static str> {
    let class = question.current.filter(|class| visibility == PROTECTED && *class != owner)?;
    if is_subclass(symbols, class, owner) {
        return Some("protected access from a subclass");
    }
    symbols.reached_from(class).contains(&owner).then_some("protected access through an interface, not given")
}

/// The same of a member of an object.
pub fn of_member(symbols: &Symbols, question: &Question, object: &[u8], name: u16) -> Option<&'static str> {
    let owner = named_id(object)?;
    of_access(symbols, question, symbols.visibility(owner, name)?, owner)
}
