//! The compared domain: where the Rust is the yardstick. It is decided from an accepted table's and question's bytes, then
//! from a run's visited nodes and their types; no message is read.

use crate::answer::Run;
use crate::rust::{Checker, Expr, ParamSym, Symbol, SymbolKind, Ty};
use crate::table::{has_interface, has_superclass, owners};
use reading::places::{in_question, in_table, parts};
use reading::words::types::LARGE_ARRAY;
use std::collections::HashMap;

/// Why the Rust is no yardstick of an accepted table and question.
#[derive(Debug, Clone, Copy, PartialEq, Eq, Hash, PartialOrd, Ord)]
pub enum Outside {
    /// Document 02, order 2: "Runs beside the Rust use tables without superclasses."
    Superclass,
    /// Document 02, order 6: "Runs beside the Rust use only 65,535 there", in the two interface ids of each class record.
    Interface,
    /// Document 01: "Questions where a base that isn't Named has a `name()` spelling an owner of the table are outside the
    /// compared domain."
    Spelling,
    /// Document 02, order 4: "The Rust is the yardstick only where any vararg is its function's last parameter". Asked of
    /// every function of a list that a visited call reads, of those too that drop out or do not fit.
    VarargNotLast,
    /// ".. each call has at most one unnamed argument". Asked of the visited calls that read a list.
    UnnamedArguments,
    /// ".. and either some overload matches or no argument is named". Asked of the same calls, also where none fits.
    NamedNoMatch,
    /// Document 02, order 5: "runs beside the Rust leave kind 22 out". Asked of every type in the table's records and the
    /// question's leaves, visited or not.
    LargeArray,
}

impl Outside {
    pub const ALL: [Outside; 7] = [
        Outside::Superclass,
        Outside::Interface,
        Outside::Spelling,
        Outside::VarargNotLast,
        Outside::UnnamedArguments,
        Outside::NamedNoMatch,
        Outside::LargeArray,
    ];
}

/// Why the Rust is not run on an accepted table and question.
pub fn outside_before(table: &[u8], question: &[u8]) -> Option<Outside> {
    let large = |ty: &[u8]| parts(ty).iter().any(|part| part[0] == LARGE_ARRAY);
    let in_table = || in_table(table).into_iter().any(|place| large(&table[place]));
    let in_question = || in_question(question).into_iter().any(|place| large(&question[place]));
    if has_superclass(table) {
        Some(Outside::Superclass)
    } else if has_interface(table) {
        Some(Outside::Interface)
    } else if in_table() || in_question() {
        Some(Outside::LargeArray)
    } else {
        None
    }
}

/// Why a run is outside the domain, of an accepted table and question of which `outside_before` says nothing. Of several
/// calls the one that was finished first says: up to there the Rust's types are right.
pub fn outside(run: &Run, table: &[u8]) -> Option<Outside> {
    let visited = Visited::of(run);
    if visited.spells_an_owner(table) {
        return Some(Outside::Spelling);
    }
    run.judged
        .finished
        .iter()
        .find_map(|(node, _)| visited.call(*node).and_then(|call| call.outside(&run.filled.checker)))
}

/// The visited nodes of a run, with the tree.
struct Visited<'a> {
    run: &'a Run,
    types: HashMap<usize, &'a Ty>,
    nodes: HashMap<usize, &'a Expr>,
}

/// A visited call that reads a list that is not empty.
struct Call<'a> {
    list: &'a [Symbol],
    /// Each argument's name, if it is a named one, and its type.
    arguments: Vec<(Option<&'a str>, &'a Ty)>,
}

fn enter<'a>(expr: &'a Expr, nodes: &mut HashMap<usize, &'a Expr>) {
    nodes.insert(expr.span().start, expr);
    match expr {
        Expr::Leaf(..) | Expr::Ident(..) => {}
        Expr::Binary { lhs, rhs, .. } => [lhs, rhs].into_iter().for_each(|e| enter(e, nodes)),
        Expr::Unary { operand: part, .. } | Expr::NamedArg { value: part, .. } => enter(part, nodes),
        Expr::MemberAccess { object, .. } => enter(object, nodes),
        Expr::Call { args, .. } => args.iter().for_each(|e| enter(e, nodes)),
        Expr::MethodCall { callee, args, .. } => {
            // The callee has the call's own number.
            if let Expr::MemberAccess { object, .. } = &**callee {
                enter(object, nodes);
            }
            args.iter().for_each(|e| enter(e, nodes));
        }
    }
}

impl<'a> Visited<'a> {
    fn of(run: &'a Run) -> Visited<'a> {
        let types = run.judged.finished.iter().map(|(node, ty)| (*node, ty)).collect();
        let mut nodes = HashMap::new();
        enter(&run.asked.tree, &mut nodes);
        Visited { run, types, nodes }
    }

    /// The call at a visited node, if there is one that reads a list.
    fn call(&self, node: usize) -> Option<Call<'a>> {
        let (key, args) = match self.nodes[&node] {
            Expr::Call { name, args, .. } => (name.clone(), args),
            Expr::MethodCall { callee, args, .. } => {
                let Expr::MemberAccess { object, name, .. } = &**callee else { return None };
                let Ty::Named(owner) = self.types[&object.span().start].non_null() else { return None };
                (format!("{}.{}", owner, name), args)
            }
            _ => return None,
        };
        let list = self.run.filled.checker.functions(&key);
        if list.is_empty() {
            return None;
        }
        let one = |arg: &'a Expr| {
            let name = if let Expr::NamedArg { name, .. } = arg { Some(name.as_str()) } else { None };
            (name, self.types[&arg.span().start])
        };
        Some(Call { list, arguments: args.iter().map(one).collect() })
    }

    /// Whether a base of a visited member or method call that isn't Named has a `name()` that spells an owner.
    fn spells_an_owner(&self, table: &[u8]) -> bool {
        // The object of a member or method call is the node behind it.
        let is_object = |node: usize| node > 0 && matches!(self.run.asked.kinds[node - 1], 4 | 6);
        let objects = self.run.judged.finished.iter().filter(|(node, _)| is_object(*node));
        let bases = objects.map(|(_, ty)| ty.non_null()).filter(|base| !matches!(base, Ty::Named(_)));
        let spelled: Vec<String> = bases.map(|base| base.name()).collect();
        if spelled.is_empty() {
            return false;
        }
        let owners = owners(table, &self.run.filled.names);
        spelled.iter().any(|name| owners.contains(name))
    }
}

fn params(function: &Symbol) -> &[ParamSym] {
    match &function.kind {
        SymbolKind::Function { params, .. } => params,
        _ => panic!("{} is no function", function.name),
    }
}

impl Call<'_> {
    fn outside(&self, checker: &Checker) -> Option<Outside> {
        let early_vararg = |f: &Symbol| params(f).iter().rev().skip(1).any(|p| p.is_vararg);
        let named = self.arguments.iter().filter(|(name, _)| name.is_some()).count();
        if self.list.iter().any(early_vararg) {
            Some(Outside::VarargNotLast)
        } else if self.arguments.len() - named > 1 {
            Some(Outside::UnnamedArguments)
        } else if named > 0 && !self.some_overload_matches(checker) {
            Some(Outside::NamedNoMatch)
        } else {
            None
        }
    }

    /// By the Rust's own `param_accepts`, not by the second reading's score: a fault there must not take the cases out
    /// that would show it. Both agree where at most one argument is unnamed (tests/domain.rs).
    fn some_overload_matches(&self, checker: &Checker) -> bool {
        let any_own = self.list.iter().any(|f| !f.is_builtin);
        let usable = self.list.iter().filter(|f| !any_own || !f.is_builtin).map(params);
        usable.filter(|params| self.fits(params)).any(|params| self.matches(checker, params))
    }

    fn fits(&self, params: &[ParamSym]) -> bool {
        let (count, open) = (self.arguments.len(), params.last().is_some_and(|p| p.is_vararg));
        let required = params.iter().filter(|p| !p.has_default && !p.is_vararg).count();
        required <= count && (open || count <= params.len())
    }

    /// Of an overload that fits; at most one argument is unnamed. Its parameter is the first that no argument names; where
    /// there is none, the last is a vararg.
    fn matches(&self, checker: &Checker, params: &[ParamSym]) -> bool {
        let free = params.iter().find(|p| self.arguments.iter().all(|(name, _)| *name != Some(&p.name)));
        self.arguments.iter().all(|(name, ty)| {
            let accepts = |p: &ParamSym| checker.accepts(&p.ty, ty, p.is_vararg);
            match name {
                Some(name) => params.iter().find(|p| p.name == *name).is_some_and(accepts),
                None => free.is_none_or(accepts),
            }
        })
    }
}
