//! What the cut methods lean on and document 01 leaves out.

use crate::rust::{Checker, Expr, Span, Ty};
use std::collections::HashMap;
use std::sync::OnceLock;

/// An entry of the signature table; document 01's table is empty.
pub struct Signature {
    pub params: Vec<&'static str>,
    pub ret: &'static str,
}

type Signatures = HashMap<(String, String), Signature>;

pub fn std_signature_table() -> &'static Signatures {
    static TABLE: OnceLock<Signatures> = OnceLock::new();
    TABLE.get_or_init(HashMap::new)
}

pub fn llvm_type_to_ty(_name: &str) -> Option<Ty> {
    not_reached("llvm_type_to_ty")
}

pub fn is_prelude(_name: &str) -> bool {
    not_reached("is_prelude")
}

pub fn is_builtin(_name: &str) -> bool {
    not_reached("is_builtin")
}

pub fn collection_factory_ty(_name: &str) -> Option<Ty> {
    not_reached("collection_factory_ty")
}

/// The branches of `check_call` other than MemberAccess are not part of document 01's node 6.
fn not_reached(what: &str) -> ! {
    panic!("the cut methods reached {}, which the definition leaves out", what)
}

impl Checker {
    /// Node 6 has this answer Any, with its arguments unvisited.
    pub(crate) fn check_builtin_method(&mut self, _object: &Ty, _name: &str, _args: &[Expr], _span: Span) -> Ty {
        Ty::Any
    }

    /// A Module base of a member gives Any: no module has a known member.
    pub(crate) fn resolve_module_member(&mut self, _module: &str, _name: &str) -> Option<Ty> {
        None
    }

    pub(crate) fn infer_bare_method_return(&mut self, _name: &str, _args: &[Expr]) -> Option<Ty> {
        not_reached("infer_bare_method_return")
    }
}
