//! The Rust's methods, and the stand-in for `check_expr_impl` that drives them.

// The cut text has fields and locals that nothing here reads.
#![allow(dead_code, unused_mut, unused_variables)]

use crate::stubs::collection_factory_ty;
use std::collections::{HashMap, HashSet};
use std::panic::Location;

include!(concat!(env!("OUT_DIR"), "/cut.rs"));
include!(concat!(env!("OUT_DIR"), "/tables.rs"));

/// A place in the cut text that reports: its line, the method, the message's text.
pub struct Site {
    pub line: u32,
    pub method: &'static str,
    pub text: &'static str,
    pub warning: bool,
}

/// The tree of a question. `Ident` is never built; the cut text names it.
#[derive(Debug, Clone)]
pub enum Expr {
    Leaf(Ty, Span),
    Binary { op: BinOp, lhs: Box<Expr>, rhs: Box<Expr>, span: Span },
    Unary { op: UnOp, operand: Box<Expr>, span: Span },
    NamedArg { name: String, value: Box<Expr>, span: Span },
    MemberAccess { object: Box<Expr>, name: String, span: Span },
    Call { name: String, args: Vec<Expr>, span: Span },
    MethodCall { callee: Box<Expr>, args: Vec<Expr>, span: Span },
    Ident(String, Span),
}

impl Expr {
    /// A span is a node number.
    pub fn span(&self) -> Span {
        match self {
            Expr::Leaf(_, span) | Expr::Ident(_, span) => *span,
            Expr::Binary { span, .. }
            | Expr::Unary { span, .. }
            | Expr::NamedArg { span, .. }
            | Expr::MemberAccess { span, .. }
            | Expr::Call { span, .. }
            | Expr::MethodCall { span, .. } => *span,
        }
    }
}

pub fn node_span(node: usize) -> Span {
    Span::single(node, node, node)
}

/// What a run leaves besides the errors.
#[derive(Default)]
pub struct SemaInfo {
    /// The cut `check_expr` writes here.
    expr_types: HashMap<(usize, usize), String>,
    /// One bit per node that was entered.
    visited: u64,
    /// Whether some visited node has type Error.
    error_seen: bool,
    /// Per error the line of the cut text that reported it.
    lines: Vec<u32>,
    /// The finished nodes with their types, in finishing order, if wanted.
    finished: Option<Vec<(usize, Ty)>>,
}

/// What the methods said of one question.
pub struct Judged {
    pub ty: Ty,
    pub error_seen: bool,
    pub errors: Vec<CompileError>,
    pub lines: Vec<u32>,
    pub finished: Vec<(usize, Ty)>,
}

impl Checker {
    /// A checker that knows nothing; `table::fill` fills its maps.
    pub fn bare() -> Checker {
        Checker {
            symbols: SymbolTable::new(),
            errors: Vec::new(),
            var_env: vec![HashMap::new()],
            current_fn_return: None,
            in_loop_depth: 0,
            enum_variants: HashMap::new(),
            generic_bounds: HashMap::new(),
            member_visibility: HashMap::new(),
            class_methods: HashMap::new(),
            sealed_types: HashSet::new(),
            interface_types: HashSet::new(),
            class_attrs: HashMap::new(),
            open_methods: HashMap::new(),
            operator_methods: HashMap::new(),
            superclasses: HashMap::new(),
            current_type: None,
            current_package: None,
            type_visibility: HashMap::new(),
            type_package: HashMap::new(),
            imported_modules: HashSet::new(),
            is_in_suspend_fn: false,
            suspend_functions: HashSet::new(),
            info: SemaInfo::default(),
        }
    }

    pub fn add_class(&mut self, name: &str, superclass: Option<&str>, package: Option<&str>, in_types: bool) {
        if let Some(s) = superclass {
            self.superclasses.insert(name.to_string(), s.to_string());
        }
        if let Some(p) = package {
            self.type_package.insert(name.to_string(), p.to_string());
        }
        if in_types {
            self.symbols.register_type(name, Ty::Named(name.to_string()));
        }
    }

    pub fn add_operators(&mut self, class: &str, methods: HashSet<String>) {
        self.operator_methods.insert(class.to_string(), methods);
    }

    /// Straight into `functions`, behind what the list holds.
    pub fn add_function(
        &mut self,
        key: String,
        params: Vec<ParamSym>,
        return_type: Ty,
        visibility: Visibility,
        builtin: bool,
    ) {
        let kind = SymbolKind::Function { params, return_type };
        let mut symbol = Symbol::new(key.clone(), kind, visibility, node_span(0));
        symbol.is_builtin = builtin;
        self.symbols.functions.entry(key).or_default().push(symbol);
    }

    pub fn add_field(&mut self, key: String, ty: Ty) {
        self.var_env[0].insert(key, ty);
    }

    pub fn add_member_visibility(&mut self, key: String, visibility: Visibility) {
        self.member_visibility.insert(key, visibility);
    }

    pub fn add_suspend(&mut self, key: String) {
        self.suspend_functions.insert(key);
    }

    pub fn add_variant(&mut self, owner: &str, name: &str) {
        self.enum_variants.entry(owner.to_string()).or_default().push(name.to_string());
    }

    pub fn set_context(&mut self, current_type: Option<&str>, package: Option<&str>, in_suspend: bool) {
        self.current_type = current_type.map(str::to_string);
        self.current_package = package.map(str::to_string);
        self.is_in_suspend_fn = in_suspend;
    }

    /// The function list of a key; empty where there is none.
    pub fn functions(&self, key: &str) -> &[Symbol] {
        self.symbols.lookup_function(key).map_or(&[], |list| list.as_slice())
    }

    pub fn accepts(&self, parameter: &Ty, argument: &Ty, is_vararg: bool) -> bool {
        self.param_accepts(parameter, argument, is_vararg)
    }

    /// Whether `check_access` reports nothing.
    pub fn may_access(&mut self, visibility: Visibility, owner: &str) -> bool {
        let before = self.errors.len();
        self.check_access(visibility, owner, "member", node_span(0));
        self.errors.len() == before
    }

    pub fn is_variable(&self, ty: &Ty) -> bool {
        self.is_type_variable(ty)
    }

    pub fn superclass(&self, class: &str) -> Option<&String> {
        self.superclasses.get(class)
    }

    pub fn package(&self, class: &str) -> Option<&String> {
        self.type_package.get(class)
    }

    pub fn is_suspend(&self, key: &str) -> bool {
        self.suspend_functions.contains(key)
    }

    /// Runs the methods on a tree. With `keep`, the finished nodes are kept.
    pub fn run(&mut self, tree: &Expr, keep: bool) -> Judged {
        self.errors.clear();
        self.info = SemaInfo { finished: if keep { Some(Vec::new()) } else { None }, ..SemaInfo::default() };
        let ty = self.check_expr(tree);
        Judged {
            ty,
            error_seen: self.info.error_seen,
            errors: ::std::mem::take(&mut self.errors),
            lines: ::std::mem::take(&mut self.info.lines),
            finished: self.info.finished.take().unwrap_or_default(),
        }
    }

    /// The stand-in: what a node is, as document 01 says.
    fn check_expr_impl(&mut self, expr: &Expr) -> Ty {
        let node = expr.span().start;
        let bit = 1u64 << node;
        assert!(self.info.visited & bit == 0, "node {} was visited twice", node);
        self.info.visited |= bit;
        let ty = match expr {
            Expr::Leaf(ty, _) => ty.clone(),
            Expr::NamedArg { value, .. } => self.check_expr(value),
            Expr::Binary { op, lhs, rhs, span } => self.check_binary(*op, lhs, rhs, *span),
            Expr::Unary { op, operand, span } => self.check_unary(*op, operand, *span),
            Expr::MemberAccess { object, name, span } => self.check_member(object, name, *span),
            Expr::Call { name, args, span } => {
                let list = self.symbols.lookup_function(name).cloned().unwrap_or_default();
                self.check_call_args(&list, args, *span)
            }
            Expr::MethodCall { callee, args, span } => self.check_call(callee, args, *span),
            Expr::Ident(..) => panic!("an identifier is no node of a question"),
        };
        self.info.error_seen |= ty == Ty::Error;
        if let Some(finished) = &mut self.info.finished {
            finished.push((node, ty.clone()));
        }
        ty
    }

    #[track_caller]
    fn report(&mut self, span: Span, message: impl Into<String>) {
        self.info.lines.push(Location::caller().line());
        self.errors.push(CompileError::new(message, span));
    }

    #[track_caller]
    fn report_warning(&mut self, span: Span, message: impl Into<String>) {
        self.info.lines.push(Location::caller().line());
        let mut error = CompileError::new(message, span);
        error.severity = ErrorSeverity::Warning;
        self.errors.push(error);
    }
}
