//! What would mean that the definition is wrong stops the run.

use oracle::diagnostic::diagnostic;
use oracle::rust::{node_span, Checker, CompileError, Expr, Ty, LAST_WALK_FIRST_LINE, LAST_WALK_LAST_LINE, SITES};

fn line_of(method: &str, begins: &str) -> u32 {
    let found: Vec<u32> =
        SITES.iter().filter(|s| s.method == method && s.text.starts_with(begins)).map(|s| s.line).collect();
    assert!(!found.is_empty());
    found[0]
}

#[test]
#[should_panic(expected = "was visited twice")]
fn a_node_visited_twice() {
    let leaf = || Box::new(Expr::Leaf(Ty::Int, node_span(1)));
    let tree = Expr::Binary { op: oracle::rust::BIN_OPS[0], lhs: leaf(), rhs: leaf(), span: node_span(0) };
    Checker::bare().run(&tree, false);
}

#[test]
#[should_panic(expected = "unknown message")]
fn a_message_of_another_method() {
    let line = line_of("Checker::check_call", "expression is not callable");
    diagnostic(&CompileError::new("expression is not callable ('Int')", node_span(0)), line, &[0]);
}

#[test]
#[should_panic(expected = "unknown message")]
fn a_message_with_another_text() {
    let line = line_of("Checker::check_unary", "cannot dereference");
    diagnostic(&CompileError::new("something else", node_span(0)), line, &[0]);
}

#[test]
#[should_panic(expected = "no report stands there")]
fn a_line_that_does_not_report() {
    diagnostic(&CompileError::new("cannot dereference 'Int'", node_span(0)), 1, &[0]);
}

#[test]
#[should_panic(expected = "the last walk over the chosen overload reported")]
fn a_report_by_the_last_walk() {
    let walk = LAST_WALK_FIRST_LINE..LAST_WALK_LAST_LINE;
    let site = SITES.iter().filter(|s| walk.contains(&s.line)).last().expect("the last walk has two reports");
    let message = "argument 1 type mismatch: expected 'Int', got 'String'";
    diagnostic(&CompileError::new(message, node_span(0)), site.line, &[1]);
}

#[test]
fn the_last_walk_has_two_reports_and_the_check_by_index_one() {
    let walk = LAST_WALK_FIRST_LINE..LAST_WALK_LAST_LINE;
    let inside = SITES.iter().filter(|s| walk.contains(&s.line)).count();
    let mismatches = SITES.iter().filter(|s| s.method == "Checker::check_call_args" && s.text.contains("mismatch"));
    assert_eq!((inside, mismatches.count()), (2, 3));
}

#[test]
fn a_message_becomes_its_kind_and_number() {
    let line = line_of("Checker::check_call_args", "ambiguous call");
    let error = CompileError::new("ambiguous call to 'f:9': 12 overloads match the arguments", node_span(3));
    let d = diagnostic(&error, line, &[0; 4]);
    assert_eq!((d.kind, d.node, d.number), (19, 3, 12));
}
