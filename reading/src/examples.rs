//! Document 01's examples, its marked cases and its corners as cases, and those of the orders of document 02, each with
//! the answer that the documents have for it, written by hand. The stored sample begins with them.

mod array_sizes;
mod interfaces;
mod name_counts;
mod own_parameters;
mod question_edges;
mod subclasses;
mod table_edges;

use crate::bytes::*;
use crate::name::{built_in, NONE};

/// One case: the sentence it belongs to, a name that says what it shows, and the printed answer with
/// `/` for a line break.
#[derive(Debug, Clone)]
pub struct Example {
    pub sentence: &'static str,
    pub name: String,
    pub table: Bytes,
    pub question: Bytes,
    pub expected: String,
}

impl Example {
    /// What the program prints.
    pub fn printed(&self) -> String {
        self.expected.replace('/', "\n") + "\n"
    }
}

struct List {
    sentence: &'static str,
    all: Vec<Example>,
}

impl List {
    /// The sentence of the cases that follow.
    fn of(&mut self, sentence: &'static str) {
        self.sentence = sentence;
    }

    fn ask(&mut self, name: &str, table: &Table, question: Bytes, expected: &str) {
        self.raw(name, table.bytes(), question, expected);
    }

    fn tree(&mut self, name: &str, table: &Table, tree: Bytes, expected: &str) {
        self.raw(name, table.bytes(), question(&tree), expected);
    }

    fn raw(&mut self, name: &str, table: Bytes, question: Bytes, expected: &str) {
        let (name, expected) = (name.to_string(), expected.to_string());
        self.all.push(Example { sentence: self.sentence, name, table, question, expected });
    }

    /// A case whose answer does not depend on superclasses, under its table and under the same without any.
    fn twice(&mut self, name: &str, table: &Table, question: Bytes, expected: &str) {
        self.ask(name, table, question.clone(), expected);
        let flat = without_parents(&table.bytes());
        self.raw(&format!("{}-without-superclasses", name), flat, question, expected);
    }

    /// A table and its number, or 0: an Int passes under it.
    fn table(&mut self, name: &str, table: Bytes, number: u8) {
        let expected = if number == 0 { "0 1 1 00 0".to_string() } else { refused(number) };
        self.raw(name, table, question(&leaf(&[INT])), &expected);
    }

    /// A question that is refused without a table; its number stands in front of the case's name.
    fn question(&mut self, name: &str, question: Bytes, number: u8) {
        self.raw(&format!("question.{}-{}", number, name), vec![], question, &refused(number));
    }
}

/// What the program prints of a refusal.
fn refused(number: u8) -> String {
    format!("{} 0 0 - 0", number)
}

/// The names of `base()`.
const F: u16 = 40;
const P: u16 = 41;
const Q: u16 = 42;
const A: u16 = 43;
const B: u16 = 44;
const C: u16 = 45;
const T: u16 = 46;
const PKG: u16 = 47;
const LIB: u16 = 48;
const Z: u16 = 49;

fn base() -> Table {
    Table::with_names(&["f", "p", "q", "Aa", "Bb", "Cc", "T", "pkg", "lib", "z"])
}

fn l(kind: u8) -> Bytes {
    leaf(&[kind])
}

fn t(kind: u8) -> Bytes {
    vec![kind]
}

/// One overload f(p: `to`): Boolean, called with a leaf of type `from`.
fn goes(from: &[u8], to: &[u8]) -> (Table, Bytes) {
    let mut table = base();
    table.plain(F, &[BOOLEAN], &[(P, 0, to.to_vec())]);
    (table, call(F, &[leaf(from)]))
}

const ASSIGNS: &str = "0 1 1 06 0";
const DIFFERS: &str = "0 0 1 06 1/17 1 1";

pub fn all() -> Vec<Example> {
    let mut list = List { sentence: "", all: Vec::new() };
    answers(&mut list);
    ty(&mut list);
    binary_operators(&mut list);
    operator_methods(&mut list);
    unary_operators(&mut list);
    calls(&mut list);
    access(&mut list);
    members(&mut list);
    symbols(&mut list);
    methods(&mut list);
    table_refusals(&mut list);
    question_refusals(&mut list);
    orders_of_refusal(&mut list);
    unsaid(&mut list);
    subclasses::add(&mut list);
    name_counts::add(&mut list);
    own_parameters::add(&mut list);
    array_sizes::add(&mut list);
    interfaces::add(&mut list);
    table_edges::add(&mut list);
    question_edges::add(&mut list);
    list.all
}

fn answers(list: &mut List) {
    let none = Table::new();
    list.of("answer_samples");
    list.raw("answer.sample-not-null-on-int", vec![], vec![255, 255, 255, 255, 0, 2, 6, 0, 0], "0 0 1 15 1/13 0 0");
    list.raw("answer.sample-no-bytes", vec![], vec![], "8 0 0 - 0");
    list.tree("answer.a-leaf-has-its-type", &none, leaf(&map(&t(STRING), &t(ANY))), "0 1 3 100809 0");
    list.tree("answer.a-named-argument-has-its-values-type", &none, named_arg(0, &l(LONG)), "0 1 1 01 0");
    list.tree("answer.hex-digits-are-lower-case", &none, leaf(&nullable(&t(NOTHING))), "0 1 2 0c0a 0");
    list.tree("answer.an-error-leaf-does-not-pass", &none, l(ERROR), "0 0 1 15 0");
    list.tree("answer.a-pointer-to-error-passes", &none, leaf(&pointer(&t(ERROR))), "0 1 2 0d15 0");
}

fn ty(list: &mut List) {
    let add = |list: &mut List, name: &str, from: &[u8], to: &[u8], expected: &str| {
        let (table, tree) = goes(from, to);
        list.tree(name, &table, tree, expected);
    };
    let null = nullable(&t(NOTHING));
    list.of("nullable_nothing_the_null_literal_assigns_to_int");
    add(list, "ty.marked.nullable-nothing-assigns-to-int", &null, &t(INT), ASSIGNS);
    list.of("nullable_string_does_not_assign_to_int");
    add(list, "ty.marked.nullable-string-does-not-assign-to-int", &nullable(&t(STRING)), &t(INT), DIFFERS);
    list.of("nullable_t_assigns_to_u_whenever_t_does");
    add(list, "ty.nullable-long-assigns-to-int", &nullable(&t(LONG)), &t(INT), ASSIGNS);
    add(
        list,
        "ty.nullable-list-assigns-to-array",
        &nullable(&crate::bytes::list(&t(INT))),
        &array(None, &t(INT)),
        ASSIGNS,
    );
    // Document 02, order 2: "the marked case turns round".
    list.of("named_a_assigns_to_named_b_if_b_is_met_climbing_from_a");
    let mut table = base();
    table.class(B, NONE, NONE, true);
    table.class(A, B, NONE, true);
    table.plain(F, &[BOOLEAN], &[(P, 0, named(B))]);
    list.tree("ty.marked.a-class-assigns-to-its-superclass", &table, call(F, &[leaf(&named(A))]), ASSIGNS);
    list.of("only_list_array_list_and_mutable_list_as_names_assign_among_themselves");
    for (from, x) in [("list", 1), ("array-list", 2), ("mutable-list", 3)] {
        for (to, y) in [("list", 1), ("array-list", 2), ("mutable-list", 3)] {
            add(list, &format!("ty.named-{}-assigns-to-named-{}", from, to), &named(x), &named(y), ASSIGNS);
        }
    }
    add(list, "ty.named-set-does-not-assign-to-named-list", &named(5), &named(1), DIFFERS);
    add(list, "ty.named-list-does-not-assign-to-named-array", &named(1), &named(4), DIFFERS);
    list.of("list_assigns_to_every_list");
    let of = crate::bytes::list;
    add(list, "ty.list-of-int-assigns-to-list-of-string", &of(&t(INT)), &of(&t(STRING)), ASSIGNS);
    list.of("list_assigns_to_array_by_element_type");
    add(list, "ty.list-of-int-assigns-to-array-of-long", &of(&t(INT)), &array(None, &t(LONG)), ASSIGNS);
    add(list, "ty.list-of-boolean-does-not-assign-to-array-of-int", &of(&t(BOOLEAN)), &array(None, &t(INT)), DIFFERS);
    list.of("array_assigns_to_array_by_element_type_size_ignored");
    add(list, "ty.array-of-3-assigns-to-array-of-4", &array(Some(3), &t(INT)), &array(Some(4), &t(INT)), ASSIGNS);
    add(list, "ty.array-assigns-to-sized-array", &array(None, &t(INT)), &array(Some(4), &t(LONG)), ASSIGNS);
    add(
        list,
        "ty.array-of-boolean-does-not-assign-to-array-of-int",
        &array(Some(3), &t(BOOLEAN)),
        &array(Some(3), &t(INT)),
        DIFFERS,
    );
    add(list, "ty.array-does-not-assign-to-list", &array(None, &t(INT)), &of(&t(INT)), DIFFERS);
    list.of("every_numeric_type_assigns_to_every_other");
    add(list, "ty.double-assigns-to-byte", &t(DOUBLE), &t(BYTE), ASSIGNS);
    add(list, "ty.boolean-does-not-assign-to-int", &t(BOOLEAN), &t(INT), DIFFERS);
    list.of("error_and_any_assign_both_ways");
    add(list, "ty.any-assigns-to-int", &t(ANY), &t(INT), ASSIGNS);
    add(list, "ty.int-assigns-to-any", &t(INT), &t(ANY), ASSIGNS);
    add(list, "ty.error-assigns-to-int-and-does-not-pass", &t(ERROR), &t(INT), "0 0 1 06 0");
    let eq = binary(EQ, &leaf(&of(&t(INT))), &leaf(&array(None, &t(ERROR))));
    list.tree("ty.int-assigns-to-error-in-a-comparison", &Table::new(), eq, "0 1 1 06 0");
    let ne = binary(EQ, &leaf(&of(&t(INT))), &leaf(&array(None, &t(BOOLEAN))));
    list.tree("ty.int-does-not-assign-to-boolean-in-a-comparison", &Table::new(), ne, "0 0 1 06 1/4 0 0");
}

fn binary_operators(list: &mut List) {
    let none = Table::new();
    list.of("an_error_operand_gives_error_silently_before_operator_methods");
    let mut table = base();
    table.operators(C, 1);
    table.function(C, built_in("plus"), 0, false, &[CHAR], &[]);
    let c = leaf(&named(C));
    list.tree("binary.error-operand-before-operator-method", &table, binary(ADD, &c, &l(ERROR)), "0 0 1 15 0");
    list.tree(
        "binary.error-left-of-a-nullable-is-silent",
        &table,
        binary(ADD, &l(ERROR), &leaf(&nullable(&t(INT)))),
        "0 0 1 15 0",
    );
    list.of("operator_methods_come_before_the_nullable_check");
    list.tree(
        "binary.operator-method-before-nullable-check",
        &table,
        binary(ADD, &c, &leaf(&nullable(&t(INT)))),
        "0 1 1 07 0",
    );
    list.of("long_plus_long_is_int");
    list.tree("binary.marked.long-plus-long-is-int", &none, binary(ADD, &l(LONG), &l(LONG)), "0 1 1 00 0");
    list.of("long_minus_long_is_long");
    list.tree("binary.marked.long-minus-long-is-long", &none, binary(SUB, &l(LONG), &l(LONG)), "0 1 1 01 0");
    list.of("double_plus_double_is_float");
    list.tree("binary.marked.double-plus-double-is-float", &none, binary(ADD, &l(DOUBLE), &l(DOUBLE)), "0 1 1 04 0");
    list.of("any_plus_int_is_string");
    list.tree("binary.marked.any-plus-int-is-string", &none, binary(ADD, &l(ANY), &l(INT)), "0 1 1 08 0");
    list.of("assign_to_is_and_as_report_nullable_operands_too");
    for (name, op) in [("assign", ASSIGN), ("to", TO), ("is", IS), ("as", AS)] {
        let tree = binary(op, &leaf(&nullable(&t(INT))), &l(INT));
        list.tree(&format!("binary.{}-reports-a-nullable-left", name), &none, tree, "0 0 1 15 1/1 0 0");
        let tree = binary(op, &l(INT), &leaf(&nullable(&t(INT))));
        list.tree(&format!("binary.{}-reports-a-nullable-right", name), &none, tree, "0 0 1 15 1/1 0 0");
    }
    list.tree("binary.assign-gives-the-right-type", &none, binary(ASSIGN, &l(INT), &l(STRING)), "0 1 1 08 0");
    list.tree("binary.to-gives-pair", &none, binary(TO, &l(INT), &l(STRING)), "0 1 3 110000 0");
    list.tree("binary.is-gives-boolean", &none, binary(IS, &l(INT), &l(STRING)), "0 1 1 06 0");
    list.tree("binary.as-gives-the-right-type", &none, binary(AS, &l(INT), &l(CHAR)), "0 1 1 07 0");
    list.tree("binary.eq-takes-nullable-operands", &none, binary(EQ, &leaf(&nullable(&t(INT))), &l(INT)), "0 1 1 06 0");
    list.tree(
        "binary.and-reports-nullable-operands-as-not-boolean",
        &none,
        binary(AND, &leaf(&nullable(&t(BOOLEAN))), &leaf(&nullable(&t(BOOLEAN)))),
        "0 0 1 06 2/6 0 1/6 0 2",
    );
    list.of("a_bitwise_operator_gives_the_left_type_reported_or_not");
    list.tree(
        "binary.bitwise-reported-gives-the-left-type",
        &none,
        binary(BIT_AND, &l(STRING), &l(INT)),
        "0 0 1 08 1/7 0 0",
    );
    list.tree("binary.bitwise-gives-the-left-type", &none, binary(BIT_AND, &l(LONG), &l(INT)), "0 1 1 01 0");
    list.of("diagnostic_kinds_of_binary_operators");
    list.tree("binary.2-plus-on-booleans", &none, binary(ADD, &l(BOOLEAN), &l(BOOLEAN)), "0 0 1 15 1/2 0 0");
    list.tree("binary.3-minus-on-strings", &none, binary(SUB, &l(STRING), &l(STRING)), "0 0 1 15 1/3 0 0");
    list.tree(
        "binary.4-unrelated-comparison-is-a-warning-and-does-not-pass",
        &none,
        binary(EQ, &l(INT), &l(STRING)),
        "0 0 1 06 1/4 0 0",
    );
    list.tree("binary.char-and-string-compare", &none, binary(EQ, &l(CHAR), &l(STRING)), "0 1 1 06 0");
    list.tree("binary.5-not-comparable", &none, binary(LT, &l(INT), &l(STRING)), "0 0 1 06 1/5 0 0");
    list.tree("binary.6-logical-left", &none, binary(AND, &l(INT), &l(BOOLEAN)), "0 0 1 06 1/6 0 1");
    list.tree("binary.6-logical-right", &none, binary(AND, &l(BOOLEAN), &l(INT)), "0 0 1 06 1/6 0 2");
}

fn operator_methods(list: &mut List) {
    let plus = built_in("plus");
    let mut table = base();
    table.class(A, NONE, NONE, true);
    table.class(B, A, NONE, true);
    table.class(C, B, NONE, true);
    table.operators(A, 1);
    table.function(A, plus, 0, false, &[CHAR], &[]);
    let c_plus = binary(ADD, &leaf(&named(C)), &l(INT));
    list.of("operator_methods_only_for_a_named_left_type");
    let plus_of = |left: &[u8], right: &[u8]| question(&binary(ADD, &leaf(left), &leaf(right)));
    let reported = "0 0 1 15 1/2 0 0";
    list.twice("operators.named-left", &table, plus_of(&named(A), &[INT]), "0 1 1 07 0");
    list.twice("operators.named-right-does-not-count", &table, plus_of(&[INT], &named(A)), reported);
    let nullable_left = plus_of(&nullable(&named(A)), &[INT]);
    list.twice("operators.nullable-left-does-not-count", &table, nullable_left, "0 0 1 15 1/1 0 0");
    list.of("the_climb_stops_at_a_class_without_an_operator_set");
    let mut stops = table.clone();
    stops.operators(C, 2);
    list.tree("operators.marked.the-climb-stops-at-a-class-without-a-set", &stops, c_plus.clone(), "0 0 1 15 1/2 0 0");
    list.tree(
        "operators.a-class-without-a-set-does-not-climb",
        &table,
        binary(ADD, &leaf(&named(B)), &l(INT)),
        "0 0 1 15 1/2 0 0",
    );
    let mut climbs = table.clone();
    climbs.operators(C, 2);
    climbs.operators(B, 0);
    list.tree("operators.the-climb-goes-through-an-empty-set", &climbs, c_plus, "0 1 1 07 0");
    list.of("a_method_without_a_function_gives_any");
    let mut bare = base();
    bare.operators(A, 0x7ff);
    for op in 0..11 {
        list.tree(
            &format!("operators.operator-{}-without-a-function-gives-any", op),
            &bare,
            binary(op, &leaf(&named(A)), &l(INT)),
            "0 1 1 09 0",
        );
    }
    list.tree(
        "operators.and-is-no-operator-method",
        &bare,
        binary(AND, &leaf(&named(A)), &l(BOOLEAN)),
        "0 0 1 06 1/6 0 1",
    );
    for bit in 0..11u16 {
        let mut one = base();
        one.operators(A, 1 << bit);
        one.function(A, plus + bit, 0, false, &[CHAR], &[]);
        list.tree(
            &format!("operators.mask-bit-{}-is-that-operator", bit),
            &one,
            binary(bit as u8, &leaf(&named(A)), &l(INT)),
            "0 1 1 07 0",
        );
    }
}

fn unary_operators(list: &mut List) {
    let none = Table::new();
    list.of("not_null_gives_error_and_a_diagnostic_on_int");
    list.tree("unary.marked.not-null-on-int", &none, unary(NOT_NULL, &l(INT)), "0 0 1 15 1/13 0 0");
    list.of("a_nullable_operand_of_a_unary_operator_is_reported_earlier");
    for op in 0..7 {
        list.tree(
            &format!("unary.operator-{}-on-a-nullable", op),
            &none,
            unary(op, &leaf(&nullable(&t(INT)))),
            "0 0 1 15 1/8 0 0",
        );
    }
    list.of("diagnostic_kinds_of_unary_operators");
    list.tree("unary.9-minus-on-string-keeps-the-type", &none, unary(MINUS, &l(STRING)), "0 0 1 08 1/9 0 0");
    list.tree("unary.10-not-on-int-gives-boolean", &none, unary(NOT, &l(INT)), "0 0 1 06 1/10 0 0");
    list.tree("unary.11-step-on-string-keeps-the-type", &none, unary(INCREMENT, &l(STRING)), "0 0 1 08 1/11 0 0");
    list.tree("unary.12-dereference-of-int", &none, unary(DEREFERENCE, &l(INT)), "0 0 1 15 1/12 0 0");
    list.tree("unary.dereference-of-a-pointer", &none, unary(DEREFERENCE, &leaf(&pointer(&t(CHAR)))), "0 1 1 07 0");
    list.tree("unary.address-of", &none, unary(ADDR_OF, &l(INT)), "0 1 2 0d00 0");
    list.tree("unary.minus-on-error-is-reported", &none, unary(MINUS, &l(ERROR)), "0 0 1 15 1/9 0 0");
    list.tree("unary.not-null-on-any-is-reported", &none, unary(NOT_NULL, &l(ANY)), "0 0 1 15 1/13 0 0");
    list.tree(
        "unary.dereferenced-pointer-to-error-is-a-silent-error",
        &none,
        unary(DEREFERENCE, &leaf(&pointer(&t(ERROR)))),
        "0 0 1 15 0",
    );
}

fn calls(list: &mut List) {
    let int = || t(INT);
    let string = || t(STRING);
    list.of("an_empty_list_gives_error_silently_arguments_unvisited");
    list.tree("call.empty-list-arguments-unvisited", &base(), call(F, &[unary(MINUS, &l(STRING))]), "0 0 1 15 0");
    let mut only_suspend = base();
    only_suspend.suspend(NONE, F);
    list.tree("call.empty-list-ends-before-suspend", &only_suspend, call(F, &[]), "0 0 1 15 0");

    list.of("builtins_drop_out_beside_any_non_builtin");
    let mut table = base();
    table.function(NONE, F, 0, true, &[CHAR], &[(P, 0, int())]);
    table.function(NONE, F, 0, false, &[BOOLEAN], &[(P, 0, string())]);
    list.tree("call.a-builtin-drops-out-beside-a-non-builtin", &table, call(F, &[l(INT)]), "0 0 1 06 1/17 1 1");
    let mut table = base();
    table.function(NONE, F, 0, true, &[CHAR], &[(P, 0, int())]);
    list.tree("call.a-builtin-alone-stays", &table, call(F, &[l(INT)]), "0 1 1 07 0");
    list.tree("call.only-builtins-and-none-fits-is-a-silent-error", &table, call(F, &[]), "0 0 1 15 0");

    // Document 02, order 4, as all of the sentences about whom an argument is compared with.
    list.of("the_unnamed_arguments_take_in_turn_the_parameters_that_no_argument_names");
    let mut table = base();
    table.plain(F, &[CHAR], &[(P, 0, int()), (Q, 0, string())]);
    table.plain(F, &[BOOLEAN], &[(P, 0, string()), (Q, 0, int())]);
    let both = call(F, &[l(INT), l(LONG)]);
    list.tree("call.both-unnamed-do-not-meet-the-first-parameter", &table, both, "0 0 1 15 1/18 0 0");
    list.tree(
        "call.unnamed-meets-the-first-that-nobody-names",
        &table,
        call(F, &[named_arg(P, &l(STRING)), l(INT)]),
        "0 1 1 06 0",
    );
    list.tree("call.the-name-may-come-later", &table, call(F, &[l(INT), named_arg(P, &l(STRING))]), "0 1 1 06 0");

    list.of("an_exact_match_scores_2_an_accepted_one_1");
    let mut table = base();
    table.plain(F, &[CHAR], &[(P, 0, t(LONG))]);
    table.plain(F, &[BOOLEAN], &[(P, 0, int())]);
    list.tree("call.exact-beats-accepted", &table, call(F, &[l(INT)]), "0 1 1 06 0");
    list.tree("call.exact-beats-accepted-by-name", &table, call(F, &[named_arg(P, &l(INT))]), "0 1 1 06 0");
    let mut table = base();
    table.plain(F, &[CHAR], &[(P, 0, int()), (Q, 0, t(LONG))]);
    table.plain(F, &[BOOLEAN], &[(P, 0, t(LONG)), (Q, 0, int())]);
    let by_name = call(F, &[named_arg(P, &l(INT)), named_arg(Q, &l(INT))]);
    list.tree("call.an-exact-and-an-accepted-score-3-either-way", &table, by_name, "0 0 1 07 1/19 0 2");

    list.of("an_unnamed_argument_left_without_a_parameter_scores_1_and_is_not_reported");
    let mut table = base();
    table.plain(F, &[CHAR], &[(P, 0, int()), (Q, VARARG, int())]);
    table.plain(F, &[BOOLEAN], &[(P, 0, t(LONG)), (Q, 0, int()), (Z, VARARG, int())]);
    let tree = call(F, &[named_arg(P, &l(INT)), named_arg(Q, &l(INT)), l(INT)]);
    list.tree("call.an-unnamed-behind-a-named-vararg-scores-1", &table, tree, "0 0 1 07 1/19 0 2");

    list.of("the_first_highest_wins_ties_are_reported_with_their_count");
    for count in 2..=5 {
        let mut table = base();
        table.plain(F, &[DOUBLE], &[(P, 0, t(LONG))]);
        for i in 0..count {
            table.plain(F, &[CHAR + i], &[(P, 0, int())]);
        }
        let expected = format!("0 0 1 07 1/19 0 {}", count);
        list.tree(&format!("call.a-tie-of-{}", count), &table, call(F, &[l(INT)]), &expected);
    }
    let mut table = base();
    table.plain(F, &[CHAR], &[]);
    table.plain(F, &[BOOLEAN], &[]);
    list.tree("call.a-score-of-0-is-a-match", &table, call(F, &[]), "0 0 1 07 1/19 0 2");

    let mut two = base();
    two.plain(F, &[CHAR], &[(P, 0, int()), (Q, 0, string())]);
    two.plain(F, &[BOOLEAN], &[(P, 0, int()), (Q, 0, int())]);
    // Document 02, order 4: "f(Int, String) chooses the first of the two marked overloads, and f(Int, Int) the second".
    list.of("int_string_chooses_the_first_of_the_two_marked_overloads");
    list.tree("call.marked.two-overloads-called-int-string", &two, call(F, &[l(INT), l(STRING)]), "0 1 1 07 0");
    list.of("int_int_chooses_the_second_of_the_two_marked_overloads");
    list.tree("call.marked.two-overloads-called-int-int", &two, call(F, &[l(INT), l(INT)]), "0 1 1 06 0");
    list.of("with_int_string_as_the_only_overload_int_string_matches");
    let mut one = base();
    one.plain(F, &[CHAR], &[(P, 0, int()), (Q, 0, string())]);
    list.tree("call.one-overload-called-int-string", &one, call(F, &[l(INT), l(STRING)]), "0 1 1 07 0");
    list.tree("call.one-overload-called-string-int", &one, call(F, &[l(STRING), l(INT)]), "0 0 1 07 2/17 1 1/17 2 2");
    // Document 02, order 4: "The marked call f(q = Int, String) now gives two mismatches".
    list.of("the_marked_call_with_q_int_and_string_gives_two_mismatches");
    let by_name = call(F, &[named_arg(Q, &l(INT)), l(STRING)]);
    list.tree("call.marked.named-q-int-then-string", &one, by_name, "0 0 1 07 2/17 1 1/17 3 2");
    list.of("a_int_b_int_called_with_a_twice_matches");
    let mut twice = base();
    twice.plain(F, &[CHAR], &[(P, 0, int()), (Q, 0, int())]);
    let tree = call(F, &[named_arg(P, &l(INT)), named_arg(P, &l(INT))]);
    list.tree("call.marked.a-name-given-twice-matches", &twice, tree.clone(), "0 1 1 07 0");
    twice.plain(F, &[BOOLEAN], &[(P, 0, string()), (Q, 0, string())]);
    list.tree("call.a-name-given-twice-matches-beside-another-overload", &twice, tree, "0 1 1 07 0");
    list.of("an_unknown_named_argument_is_reported_once_per_overload_that_fits_in_number");
    let mut fits = base();
    fits.plain(F, &[CHAR], &[(P, 0, int())]);
    fits.plain(F, &[CHAR], &[(P, 0, int()), (Q, 0, int())]);
    fits.plain(F, &[CHAR], &[(Q, 0, int())]);
    list.tree(
        "call.an-unknown-name-once-per-fitting-overload",
        &fits,
        call(F, &[named_arg(Z, &l(INT))]),
        "0 0 1 15 3/16 1 1/16 1 1/18 0 0",
    );
    list.tree(
        "call.a-name-unknown-to-one-overload-is-reported-although-the-other-matches",
        &fits,
        call(F, &[named_arg(Q, &l(INT))]),
        "0 0 1 07 1/16 1 1",
    );
    list.tree(
        "call.an-unknown-name-with-one-fitting-overload-may-have-no-mismatch",
        &fits,
        call(F, &[l(INT), named_arg(Z, &l(INT))]),
        "0 0 1 07 1/16 2 2",
    );

    list.of("argument_counts");
    for count in 0..=16usize {
        let mut table = base();
        let row: Vec<Param> = (0..count + 1).take(16).map(|i| (i as u16, 0, int())).collect();
        let short = if count == 16 { &row[..15] } else { &row[..] };
        table.plain(F, &[CHAR], short);
        let args: Vec<Bytes> = (0..count).map(|_| l(INT)).collect();
        list.tree(
            &format!("call.15-with-{}-arguments", count),
            &table,
            call(F, &args),
            &format!("0 0 1 15 1/15 0 {}", count),
        );
    }
    let mut table = base();
    table.plain(F, &[CHAR], &[(P, 0, int()), (Q, DEFAULT, string())]);
    list.tree("call.a-default-may-be-left-out", &table, call(F, &[l(INT)]), "0 1 1 07 0");
    let mut table = base();
    table.plain(F, &[CHAR], &[(P, 0, int()), (Q, VARARG, string())]);
    list.tree("call.a-last-vararg-takes-any-number", &table, call(F, &[l(INT), l(INT), l(INT)]), "0 1 1 07 0");
    list.tree("call.a-last-vararg-takes-none", &table, call(F, &[l(INT)]), "0 1 1 07 0");
    let mut table = base();
    table.plain(F, &[CHAR], &[(P, VARARG, int()), (Q, 0, string())]);
    list.tree("call.a-vararg-not-last-accepts-every-type", &table, call(F, &[l(BOOLEAN), l(STRING)]), "0 1 1 07 0");
    let second = call(F, &[l(STRING), l(BOOLEAN)]);
    list.tree("call.a-vararg-not-last-does-not-take-the-second", &table, second, "0 0 1 07 1/17 2 2");
    list.tree(
        "call.a-vararg-not-last-does-not-open-the-count",
        &table,
        call(F, &[l(INT), l(INT), l(INT)]),
        "0 0 1 15 1/15 0 3",
    );

    list.of("type_variables");
    let mut table = base();
    table.plain(F, &[CHAR], &[(P, 0, named(T))]);
    list.tree("call.one-capital-letter-outside-types-accepts-everything", &table, call(F, &[l(INT)]), "0 1 1 07 0");
    let mut table = base();
    table.class(T, NONE, NONE, true);
    table.plain(F, &[CHAR], &[(P, 0, named(T))]);
    list.tree("call.one-capital-letter-in-types-does-not", &table, call(F, &[l(INT)]), "0 0 1 07 1/17 1 1");
    let mut table = base();
    table.class(T, NONE, NONE, false);
    table.plain(F, &[CHAR], &[(P, 0, named(T))]);
    list.tree("call.a-class-without-the-flag-is-not-in-types", &table, call(F, &[l(INT)]), "0 1 1 07 0");
    let mut table = base();
    table.plain(F, &[CHAR], &[(P, 0, named(Z))]);
    list.tree("call.a-small-letter-is-no-type-variable", &table, call(F, &[l(INT)]), "0 0 1 07 1/17 1 1");

    list.of("suspend");
    let mut table = base();
    table.plain(F, &[CHAR], &[(P, 0, int())]);
    table.suspend(NONE, F);
    let tree = call(F, &[unary(MINUS, &l(STRING))]);
    list.tree("call.suspend-is-reported-before-the-arguments", &table, tree.clone(), "0 0 1 07 3/14 0 0/9 1 0/17 1 1");
    list.ask(
        "call.suspend-is-allowed-inside-suspend",
        &table,
        question_in(NONE, NONE, true, &call(F, &[l(INT)])),
        "0 1 1 07 0",
    );
    let mut table = base();
    table.function(A, F, 0, false, &[CHAR], &[]);
    table.suspend(NONE, F);
    list.tree(
        "method.an-ownerless-suspend-entry-is-not-the-methods",
        &table,
        method(F, &leaf(&named(A)), &[]),
        "0 1 1 07 0",
    );
    table.suspend(A, F);
    list.tree("method.suspend", &table, method(F, &leaf(&named(A)), &[]), "0 0 1 07 1/14 0 0");
}

fn access(list: &mut List) {
    list.of("an_empty_owner_blocks_nothing");
    for (name, visibility) in [("protected", 1), ("internal", 2), ("private", 3)] {
        let mut table = base();
        table.function(NONE, F, visibility, false, &[CHAR], &[]);
        list.tree(&format!("access.a-{}-function-without-owner", name), &table, call(F, &[]), "0 1 1 07 0");
    }
    list.of("nor_does_internal_where_either_package_is_unknown");
    let internal = |package: u16| {
        let mut table = base();
        table.class(A, NONE, package, true);
        table.function(A, F, 2, false, &[CHAR], &[]);
        table
    };
    let tree = method(F, &leaf(&named(A)), &[]);
    let from = |package: u16| question_in(NONE, package, false, &method(F, &leaf(&named(A)), &[]));
    list.ask("access.internal-owner-package-unknown", &internal(NONE), from(PKG), "0 1 1 07 0");
    list.ask("access.internal-current-package-unknown", &internal(PKG), from(NONE), "0 1 1 07 0");
    list.ask("access.internal-same-package", &internal(PKG), from(PKG), "0 1 1 07 0");
    list.ask("access.internal-other-package", &internal(PKG), from(LIB), "0 0 1 07 1/20 0 2");
    list.of("access_by_visibility");
    let with = |visibility: u8| {
        let mut table = base();
        table.class(A, NONE, NONE, true);
        table.class(B, A, NONE, true);
        table.class(C, B, NONE, true);
        table.function(A, F, visibility, false, &[CHAR], &[]);
        table
    };
    let inside = |class: u16| question_in(class, NONE, false, &method(F, &leaf(&named(A)), &[]));
    for (name, class, protected, private) in [
        ("outside", NONE, "0 0 1 07 1/20 0 1", "0 0 1 07 1/20 0 3"),
        ("in-the-class", A, "0 1 1 07 0", "0 1 1 07 0"),
        ("in-a-subclass", B, "0 1 1 07 0", "0 0 1 07 1/20 0 3"),
        ("in-a-subclass-of-a-subclass", C, "0 1 1 07 0", "0 0 1 07 1/20 0 3"),
        ("in-another-class", T, "0 0 1 07 1/20 0 1", "0 0 1 07 1/20 0 3"),
    ] {
        // Only protected access from a subclass depends on the superclasses.
        let protected_case = if matches!(class, B | C) { List::ask } else { List::twice };
        protected_case(list, &format!("access.protected-{}", name), &with(1), inside(class), protected);
        list.twice(&format!("access.private-{}", name), &with(3), inside(class), private);
        list.twice(&format!("access.public-{}", name), &with(0), inside(class), "0 1 1 07 0");
    }
    let mut blocked = with(3);
    blocked.suspend(A, F);
    list.twice("access.20-comes-before-14", &blocked, question(&tree), "0 0 1 07 2/20 0 3/14 0 0");
}

fn members(list: &mut List) {
    let size = built_in("size");
    list.of("no_climb_to_superclasses");
    let mut table = base();
    table.class(A, NONE, NONE, true);
    table.class(B, A, NONE, true);
    table.class(C, A, NONE, false);
    table.field(A, P, &[LONG]);
    table.visibility(A, P, 3);
    list.ask(
        "member.of-the-class-itself",
        &table,
        question_in(A, NONE, false, &member(P, &leaf(&named(A)))),
        "0 1 1 01 0",
    );
    list.tree("member.no-climb-unresolved", &table, member(P, &leaf(&named(B))), "0 0 1 15 1/22 0 0");
    list.tree("member.no-climb-and-not-in-types-is-a-silent-error", &table, member(P, &leaf(&named(C))), "0 0 1 15 0");
    list.of("a_name_found_only_as_a_function_gives_a_function_type_with_no_parameters");
    let mut table = base();
    table.function(A, F, 0, false, &[LONG], &[(P, 0, t(INT))]);
    table.function(A, F, 0, false, &[CHAR], &[]);
    list.tree("member.a-function-gives-a-function-type", &table, member(F, &leaf(&named(A))), "0 1 3 120001 0");
    table.field(A, F, &[DOUBLE]);
    list.tree("member.a-field-goes-before-a-function", &table, member(F, &leaf(&named(A))), "0 1 1 05 0");
    list.of("members_of_every_base");
    let none = base();
    let of = |name: u16, ty: &[u8]| member(name, &leaf(ty));
    list.tree("member.of-any-is-any", &none, of(P, &t(ANY)), "0 1 1 09 0");
    list.tree("member.of-nullable-any-is-any", &none, of(P, &nullable(&t(ANY))), "0 1 1 09 0");
    list.tree("member.of-a-module-is-any", &none, of(P, &module(A)), "0 1 1 09 0");
    list.tree("member.21-of-a-nullable", &none, of(size, &nullable(&t(STRING))), "0 0 1 15 1/21 0 0");
    list.tree("member.23-of-int", &none, of(size, &t(INT)), "0 0 1 15 1/23 0 0");
    list.tree("member.23-of-error", &none, of(size, &t(ERROR)), "0 0 1 15 1/23 0 0");
    list.tree("member.23-of-nullable-error", &none, of(size, &nullable(&t(ERROR))), "0 0 1 15 1/23 0 0");
    list.tree("member.of-a-type-variable", &none, of(built_in("hashCode"), &named(T)), "0 1 1 00 0");
    list.tree("member.of-a-type-variable-unknown-name-is-any", &none, of(P, &named(T)), "0 1 1 09 0");
    list.tree("member.of-pair", &none, of(built_in("second"), &named(0)), "0 1 1 09 0");
    list.tree("member.22-of-pair", &none, of(size, &named(0)), "0 0 1 15 1/22 0 0");
    list.tree("member.of-named-set", &none, of(size, &named(5)), "0 1 1 00 0");
    list.tree(
        "member.first-of-a-list-is-its-element-type",
        &none,
        of(built_in("first"), &crate::bytes::list(&t(CHAR))),
        "0 1 1 07 0",
    );
    list.tree("member.first-of-named-list-is-any", &none, of(built_in("first"), &named(1)), "0 1 1 09 0");
    list.tree("member.get-of-an-array", &none, of(built_in("get"), &array(Some(2), &t(CHAR))), "0 1 1 07 0");
    list.tree("member.keys-of-a-map", &none, of(built_in("keys"), &map(&t(INT), &t(INT))), "0 1 2 0f09 0");
    list.tree("member.length-of-a-string", &none, of(built_in("length"), &t(STRING)), "0 1 1 00 0");
    list.tree("member.of-a-class-unknown-to-the-table-is-a-silent-error", &none, of(P, &named(A)), "0 0 1 15 0");
    let mut table = base();
    table.variant(A, P);
    list.tree("member.an-enum-variant-gives-its-owner", &table, of(P, &named(A)), "0 1 3 112b00 0");
    let mut table = base();
    table.class(A, NONE, NONE, true);
    table.visibility(A, P, 3);
    list.tree("member.20-then-22", &table, of(P, &named(A)), "0 0 1 15 2/20 0 3/22 0 0");
    let mut table = base();
    table.visibility(T, P, 3);
    list.tree("member.20-for-a-type-variable", &table, of(P, &named(T)), "0 0 1 09 1/20 0 3");
}

fn symbols(list: &mut List) {
    list.of("a_function_list_keeps_table_order");
    let mut table = base();
    table.plain(F, &[CHAR], &[(P, 0, t(INT))]);
    table.plain(Q, &[DOUBLE], &[]);
    table.plain(F, &[BOOLEAN], &[(P, 0, t(INT))]);
    list.tree("symbol.the-first-of-equal-overloads-is-chosen", &table, call(F, &[l(INT)]), "0 0 1 07 1/19 0 2");
    list.of("its_first_entry_serves_access");
    for (name, first, second, expected) in
        [("private-first", 3, 0, "0 0 1 07 1/20 0 3"), ("public-first", 0, 3, "0 1 1 07 0")]
    {
        let mut table = base();
        table.function(A, F, first, false, &[CHAR], &[]);
        table.function(A, F, second, false, &[BOOLEAN], &[(P, 0, t(INT))]);
        list.tree(
            &format!("symbol.access-by-the-first-entry-{}", name),
            &table,
            method(F, &leaf(&named(A)), &[]),
            expected,
        );
    }
    let mut table = base();
    table.function(A, F, 3, true, &[CHAR], &[]);
    table.function(A, F, 0, false, &[BOOLEAN], &[]);
    list.tree(
        "symbol.access-by-the-first-entry-though-it-drops-out-as-builtin",
        &table,
        method(F, &leaf(&named(A)), &[]),
        "0 0 1 06 1/20 0 3",
    );
    list.of("its_first_entry_serves_suspend");
    let mut table = base();
    table.function(A, F, 0, true, &[CHAR], &[]);
    table.function(A, F, 0, false, &[BOOLEAN], &[]);
    table.suspend(A, F);
    list.tree("symbol.suspend-by-the-first-entry", &table, method(F, &leaf(&named(A)), &[]), "0 0 1 06 1/14 0 0");
    list.of("its_first_entry_serves_operator_lookups");
    let plus = built_in("plus");
    let mut table = base();
    table.operators(A, 1);
    table.function(A, plus, 3, true, &[CHAR], &[]);
    table.function(A, plus, 0, false, &[BOOLEAN], &[]);
    list.tree("symbol.operator-by-the-first-entry", &table, binary(ADD, &leaf(&named(A)), &l(INT)), "0 1 1 07 0");
    list.of("its_first_entry_serves_member_lookups");
    let mut table = base();
    table.function(A, F, 3, true, &[CHAR], &[]);
    table.function(A, F, 0, false, &[BOOLEAN], &[]);
    list.tree("symbol.member-by-the-first-entry", &table, member(F, &leaf(&named(A))), "0 1 3 120007 0");
    list.of("two_functions_of_a_list_may_be_equal");
    let mut table = base();
    table.plain(F, &[CHAR], &[]);
    table.plain(F, &[CHAR], &[]);
    list.tree("symbol.equal-functions-tie", &table, call(F, &[]), "0 0 1 07 1/19 0 2");
}

fn methods(list: &mut List) {
    let bad = || unary(MINUS, &l(STRING));
    list.of("a_base_that_is_not_named_or_has_no_list_gives_any_arguments_unvisited");
    let mut table = base();
    table.function(A, F, 0, false, &[CHAR], &[(P, 0, t(INT))]);
    let on = |ty: &[u8], args: &[Bytes]| method(F, &leaf(ty), args);
    list.tree("method.base-not-named-arguments-unvisited", &table, on(&t(INT), &[bad()]), "0 1 1 09 0");
    list.tree("method.no-list-arguments-unvisited", &table, on(&named(B), &[bad()]), "0 1 1 09 0");
    list.tree("method.module-base-arguments-unvisited", &table, on(&module(A), &[bad()]), "0 1 1 09 0");
    list.tree(
        "method.arguments-visited-where-there-is-a-list",
        &table,
        on(&named(A), &[bad()]),
        "0 0 1 07 2/9 2 0/17 2 1",
    );
    list.tree("method.one-nullable-is-taken-off", &table, on(&nullable(&named(A)), &[l(INT)]), "0 1 1 07 0");
    list.tree(
        "method.only-one-nullable-is-taken-off",
        &table,
        on(&nullable(&nullable(&named(A))), &[l(INT)]),
        "0 1 1 09 0",
    );
    list.tree("method.an-error-object-gives-any-and-does-not-pass", &table, on(&t(ERROR), &[l(INT)]), "0 0 1 09 0");
    list.tree("method.the-count-leaves-the-object-out", &table, on(&named(A), &[]), "0 0 1 15 1/15 0 0");
    let mut table = base();
    table.function(A, F, 0, false, &[ANY], &[(P, 0, t(INT))]);
    list.tree("method.a-result-of-any-stays-any", &table, on(&named(A), &[bad()]), "0 0 1 09 2/9 2 0/17 2 1");
    list.of("visibility_of_members_is_looked_up_for_named_bases_only");
    let mut table = base();
    table.visibility(A, built_in("size"), 3);
    list.tree(
        "member.visibility-for-a-named-base",
        &table,
        member(built_in("size"), &leaf(&named(A))),
        "0 0 1 15 1/20 0 3",
    );
    list.tree(
        "member.visibility-not-for-a-list",
        &table,
        member(built_in("size"), &leaf(&crate::bytes::list(&named(A)))),
        "0 1 1 00 0",
    );
}

fn table_refusals(list: &mut List) {
    list.of("refusals_of_tables");
    let mut put = |name: &str, table: Bytes, number: u8| list.table(name, table, number);
    let name = |text: &str| {
        let mut table = Table::new();
        table.name(text);
        table.bytes()
    };
    let joined = |parts: &[&[u8]]| parts.concat();
    put("table.none", vec![], 0);
    put("table.1-over-60000-bytes", vec![0; 60_001], 1);
    put("table.2-of-60000-bytes-is-read", vec![0; 60_000], 2);
    put("table.2-kind-0", vec![0], 2);
    put("table.2-kind-9", vec![9, 0, 0, 0, 0], 2);
    put("table.a-name-of-24-bytes", name("abcdefghijklmnopqrstuvwx"), 0);
    let mut long = name("abcdefghijklmnopqrstuvwx");
    long[1] = 25;
    put("table.2-name-length-25", long, 2);
    let mut empty = name("a");
    empty[1] = 0;
    put("table.2-name-length-0", empty, 2);
    put("table.2-name-with-a-blank", name("a b"), 2);
    put("table.2-name-with-a-dot", name("a.b"), 2);
    put("table.a-name-of-33-to-126", name("!~"), 0);
    put("table.2-name-with-127", name("a\u{7f}"), 2);
    let mut padded = name("a");
    padded[25] = b'x';
    put("table.2-name-not-zero-padded", padded, 2);
    let mut cut = name("a");
    cut.pop();
    put("table.2-a-cut-name", cut, 2);
    let class = |flag: u8| class_record(0, [NONE; 3], NONE, flag);
    put("table.a-class-in-types", class(1), 0);
    put("table.2-class-flag-2", class(2), 2);
    put("table.2-operator-mask-bit-11", vec![3, 0, 0, 0, 8], 2);
    put("table.operator-mask-of-all-bits", vec![3, 0, 0, 255, 7], 0);
    put("table.2-function-visibility-4", vec![4, 0, 0, 0, 0, 4, 0, 0, 0], 2);
    put("table.2-function-flag-2", vec![4, 0, 0, 0, 0, 0, 2, 0, 0], 2);
    put("table.2-function-of-17-parameters", vec![4, 0, 0, 0, 0, 0, 0, 17, 0], 2);
    put("table.2-parameter-flag-4", vec![4, 0, 0, 0, 0, 0, 0, 1, 0, 1, 0, 4, 0], 2);
    put("table.2-type-kind-23", vec![5, 0, 0, 0, 0, 23], 2);
    put("table.2-array-flag-2", vec![5, 0, 0, 0, 0, 14, 2, 0, 0, 0, 0, 0], 2);
    put("table.2-array-flag-0-with-a-size", vec![5, 0, 0, 0, 0, 14, 0, 1, 0, 0, 0, 0], 2);
    put("table.array-flag-1-with-size-0", vec![5, 0, 0, 0, 0, 14, 1, 0, 0, 0, 0, 0], 0);
    put("table.2-function-type-of-17", joined(&[&[5, 0, 0, 0, 0, 18, 17], &[0; 18]]), 2);
    put("table.function-type-of-16", joined(&[&[5, 0, 0, 0, 0, 18, 16], &[0; 17]]), 0);
    put("table.2-a-cut-type", vec![5, 0, 0, 0, 0, 12], 2);
    put("table.2-member-visibility-4", vec![6, 0, 0, 0, 0, 4], 2);
    put("table.3-kind-falls", joined(&[&[3, 0, 0, 1, 0], &class(1)]), 3);
    put("table.3-before-4", joined(&[&[3, 0, 0, 1, 0], &class_record(99, [NONE; 3], NONE, 1)]), 3);
    put("table.2-before-3", joined(&[&[3, 0, 0, 1, 0], &class(2)]), 2);
    put("table.4-undefined-class", class_record(40, [NONE; 3], NONE, 0), 4);
    put("table.4-undefined-superclass", class_record(0, [40, NONE, NONE], NONE, 0), 4);
    put("table.4-undefined-package", class_record(0, [NONE; 3], 40, 0), 4);
    put("table.4-no-owner-of-a-field", vec![5, 255, 255, 0, 0, 0], 4);
    put("table.4-no-owner-of-a-visibility", vec![6, 255, 255, 0, 0, 0], 4);
    put("table.4-no-owner-of-a-variant", vec![8, 255, 255, 0, 0], 4);
    put("table.no-owner-of-a-suspend-function", vec![7, 255, 255, 0, 0], 0);
    put("table.no-owner-of-a-function", vec![4, 255, 255, 0, 0, 0, 0, 0, 0], 0);
    put("table.4-undefined-name-in-a-type", vec![5, 0, 0, 0, 0, 15, 17, 40, 0], 4);
    put("table.4-undefined-module-in-a-type", vec![5, 0, 0, 0, 0, 20, 40, 0], 4);
    put("table.4-undefined-parameter-name", vec![4, 0, 0, 0, 0, 0, 0, 1, 0, 40, 0, 0, 0], 4);
    put("table.5-a-built-in-name", name("keys"), 5);
    put("table.5-a-name-twice", joined(&[&name("a"), &name("a")]), 5);
    put("table.a-name-that-another-begins-with", joined(&[&name("a"), &name("ab")]), 0);
    put("table.5-a-class-twice", joined(&[&class(1), &class(0)]), 5);
    put("table.5-an-operator-set-twice", vec![3, 0, 0, 1, 0, 3, 0, 0, 2, 0], 5);
    put("table.5-a-field-twice", vec![5, 0, 0, 0, 0, 0, 5, 0, 0, 0, 0, 1], 5);
    put("table.5-a-visibility-twice", vec![6, 0, 0, 0, 0, 0, 6, 0, 0, 0, 0, 1], 5);
    put("table.5-a-suspend-function-twice", vec![7, 255, 255, 0, 0, 7, 255, 255, 0, 0], 5);
    put("table.5-a-variant-twice", vec![8, 0, 0, 0, 0, 8, 0, 0, 0, 0], 5);
    put("table.one-key-in-several-kinds", vec![5, 0, 0, 0, 0, 0, 6, 0, 0, 0, 0, 0, 7, 0, 0, 0, 0, 8, 0, 0, 0, 0], 0);
    put("table.5-a-parameter-name-twice", vec![4, 0, 0, 0, 0, 0, 0, 2, 0, 1, 0, 0, 0, 1, 0, 0, 0], 5);
    put("table.a-function-twice", vec![4, 0, 0, 0, 0, 0, 0, 0, 0, 4, 0, 0, 0, 0, 0, 0, 0, 0], 0);
    let with_super = |class: u16, superclass: u16| class_record(class, [superclass, NONE, NONE], NONE, 0);
    let second = class_record(2, [NONE; 3], NONE, 0);
    put("table.6-its-own-superclass", with_super(1, 1), 6);
    put("table.6-a-later-superclass", joined(&[&with_super(1, 2), &second]), 6);
    put("table.an-earlier-superclass", joined(&[&second, &with_super(1, 2)]), 0);
    put("table.5-a-superclass-that-stands-earlier-and-again-later", joined(&[&second, &with_super(1, 2), &second]), 5);
    put("table.a-superclass-without-a-record", with_super(1, 2), 0);
    put(
        "table.a-superclass-behind-a-malformed-record-is-not-told-apart",
        joined(&[&with_super(1, 2), &class(2), &second]),
        2,
    );
    put(
        "table.6-a-superclass-behind-a-record-with-an-undefined-id",
        joined(&[&with_super(1, 2), &with_super(3, 77), &second]),
        6,
    );
    put("table.7-error-in-a-type", vec![5, 0, 0, 0, 0, 15, 21], 7);
    let field = |ty: &[u8]| joined(&[&[5, 0, 0, 0, 0], ty]);
    put("table.191-nullables-over-int", field(&nullables(191, &[INT])), 0);
    put("table.7-192-nullables-over-int", field(&nullables(192, &[INT])), 7);
    put("table.2-191-nullables-cut", field(&nullables(191, &[])), 2);
    put("table.7-192-nullables-and-no-more", field(&nullables(192, &[])), 7);
    put(
        "table.4-an-undefined-id-in-a-type-without-end",
        field(&[&[16, 17, 99, 0][..], &nullables(190, &[INT])].concat()),
        4,
    );
    put(
        "table.2-a-malformed-body-in-a-type-without-end",
        field(&[&[16, 14, 2, 0, 0, 0, 0, 0][..], &nullables(190, &[INT])].concat()),
        2,
    );
    put("table.7-a-body-that-crosses-the-192nd-byte-is-not-examined", field(&nullables(190, &[17, 99, 99])), 7);
    put("table.4-a-body-that-ends-at-the-192nd-byte-is-examined", field(&nullables(189, &[17, 99, 99])), 4);
    put("table.7-kind-21-at-the-192nd-byte", field(&nullables(191, &[21])), 7);
    put("table.2-kind-23-at-the-192nd-byte", field(&nullables(191, &[23])), 2);
    put("table.7-kind-23-at-the-193rd-byte-is-not-read", field(&nullables(192, &[23])), 7);
    put(
        "table.5-a-repeated-parameter-whose-type-has-no-end",
        joined(&[&[4, 0, 0, 0, 0, 0, 0, 2, 0, 1, 0, 0, 0, 1, 0, 0], &nullables(200, &[])]),
        5,
    );
    put(
        "table.7-nothing-behind-a-type-without-end-is-read",
        joined(&[&[4, 0, 0, 0, 0, 0, 0, 2, 0, 1, 0, 0], &nullables(192, &[99, 99, 99])]),
        7,
    );
}

fn question_refusals(list: &mut List) {
    list.of("refusals_of_questions");
    let mut put = |name: &str, question: Bytes, expected: &str| list.raw(name, vec![], question, expected);
    const R8: &str = "8 0 0 - 0";
    const R9: &str = "9 0 0 - 0";
    const R10: &str = "10 0 0 - 0";
    const R11: &str = "11 0 0 - 0";
    let mut long = question(&leaf(&[INT]));
    long.resize(16_385, 0);
    put("question.8-over-16384-bytes", long, R8);
    let mut long = question(&member(500, &leaf(&[INT])));
    long.resize(16_384, 0);
    put("question.10-in-16384-bytes", long.clone(), R10);
    long.push(0);
    put("question.8-over-16384-bytes-before-10", long, R8);
    put("question.8-header-of-4-bytes", vec![255, 255, 255, 255], R8);
    put("question.8-no-node", vec![255, 255, 255, 255, 0], R8);
    put("question.8-suspend-byte-2", vec![255, 255, 255, 255, 2, 0, 0], R8);
    put("question.8-suspend-byte-2-before-10", vec![40, 0, 255, 255, 2, 0, 0], R8);
    put("question.10-undefined-current-type", vec![40, 0, 255, 255, 0, 0, 0], R10);
    put("question.10-undefined-package", vec![255, 255, 40, 0, 0, 0, 0], R10);
    put("question.10-in-the-header-before-8-in-a-node", vec![255, 255, 40, 0, 0, 7], R10);
    put("question.8-node-kind-7", question(&[7, 0, 0]), R8);
    put("question.8-binary-operator-23", question(&binary(23, &leaf(&[INT]), &leaf(&[INT]))), R8);
    put("question.8-unary-operator-7", question(&unary(7, &leaf(&[INT]))), R8);
    put("question.8-17-arguments", question(&call(0, &vec![leaf(&[INT]); 17])), R8);
    put("question.16-arguments", question(&call(0, &vec![leaf(&[INT]); 16])), "0 0 1 15 0");
    put("question.8-bytes-behind-the-tree", question(&[0, 0, 0]), R8);
    put("question.8-a-cut-tree", question(&[1, 0, 0, 0]), R8);
    put("question.8-a-cut-id", question(&[4, 0]), R8);
    put("question.8-a-cut-type", question(&[0, 12]), R8);
    put("question.8-type-kind-23", question(&[0, 23]), R8);
    put("question.10-undefined-id-of-a-member", question(&member(40, &leaf(&[INT]))), R10);
    put("question.10-id-65535-of-a-call", question(&call(NONE, &[])), R10);
    put("question.10-undefined-id-in-a-leaf", question(&leaf(&named(40))), R10);
    put("question.8-in-a-node-before-10-in-a-later-one", question(&[5, 0, 0, 17, 4, 40, 0]), R8);
    put("question.10-in-a-node-before-8-in-a-later-one", question(&[4, 40, 0, 7]), R10);
    let chain = |n: usize, last: &[u8]| question(&[&[2, ADDR_OF].repeat(n)[..], last].concat());
    put("question.64-nodes", chain(63, &[0, 0]), &format!("0 1 64 {}00 0", "0d".repeat(63)));
    put("question.9-a-65th-node", chain(64, &[0, 0]), R9);
    put("question.9-a-65th-node-with-an-undefined-id", chain(64, &[4, 40, 0, 0, 0]), R9);
    put("question.9-a-65th-node-with-a-type-without-end", chain(64, &leaf(&nullables(192, &[INT]))), R9);
    put("question.8-a-65th-node-that-is-malformed", chain(64, &[7]), R8);
    put("question.8-a-65th-node-that-is-cut", chain(64, &[4, 0]), R8);
    put("question.8-a-65th-node-that-is-missing", chain(64, &[]), R8);
    put("question.8-a-65th-node-with-a-cut-type", chain(64, &leaf(&nullables(191, &[]))), R8);
    put(
        "question.191-nullables-over-int",
        question(&leaf(&nullables(191, &[INT]))),
        &format!("0 1 192 {}00 0", "0c".repeat(191)),
    );
    put("question.11-192-nullables-over-int", question(&leaf(&nullables(192, &[INT]))), R11);
    put("question.8-191-nullables-cut", question(&leaf(&nullables(191, &[]))), R8);
    put("question.11-192-nullables-and-no-more", question(&leaf(&nullables(192, &[]))), R11);
    put(
        "question.10-before-11-in-a-type-without-end",
        question(&leaf(&[&[16, 17, 40, 0][..], &nullables(190, &[INT])].concat())),
        R10,
    );
    put(
        "question.8-before-11-in-a-type-without-end",
        question(&leaf(&[&[16, 18, 17][..], &nullables(190, &[INT])].concat())),
        R8,
    );
    put("question.11-nothing-behind-the-192nd-byte-is-read", question(&leaf(&nullables(192, &[23, 23, 23]))), R11);
    put(
        "question.11-a-body-that-crosses-the-192nd-byte-is-not-examined",
        question(&leaf(&nullables(190, &[17, 99, 99]))),
        R11,
    );
    put("question.error-inside-a-leaf", question(&leaf(&crate::bytes::list(&[ERROR]))), "0 1 2 0f15 0");
    let mut names = Table::new();
    names.name("a");
    list.ask("question.ids-see-all-names", &names, question(&leaf(&named(40))), "0 1 3 112800 0");
}

fn orders_of_refusal(list: &mut List) {
    list.of("table_first");
    let mut long = question(&leaf(&[INT]));
    long.resize(16_385, 0);
    list.raw("order.a-faulty-table-beside-an-over-long-question", vec![0], long, "2 0 0 - 0");
    list.raw("order.a-long-table-beside-no-question", vec![0; 60_001], vec![], "1 0 0 - 0");
    list.of("the_first_faulty_record");
    let first = [class_record(40, [NONE; 3], NONE, 0), vec![0]].concat();
    list.raw("order.4-in-a-record-before-2-in-a-later-one", first, question(&leaf(&[INT])), "4 0 0 - 0");
    list.of("the_longest_types");
    let mut table = base();
    table.function(C, F, 0, false, &nullables(191, &[INT]), &[]);
    let tree = (0..62).fold(member(F, &leaf(&named(C))), |tree, _| unary(ADDR_OF, &tree));
    let expected = format!("0 1 256 {}1200{}00 0", "0d".repeat(62), "0c".repeat(191));
    list.tree("answer.a-type-of-256-bytes", &table, tree, &expected);
}

/// What the Rust does and document 01 leaves to it, each by its smallest input (docs/DIFFERENCES.md).
fn unsaid(list: &mut List) {
    list.of("what_document_01_leaves_to_the_rust");
    let none = Table::new();
    let ints = array(None, &t(INT));
    let eq = |left: &[u8], right: &[u8]| binary(EQ, &leaf(left), &leaf(right));
    list.tree("rust.named-array-list-assigns-to-every-array", &none, eq(&named(2), &ints), "0 1 1 06 0");
    list.tree("rust.named-mutable-list-assigns-to-every-array", &none, eq(&named(3), &ints), "0 1 1 06 0");
    list.tree("rust.named-list-does-not-assign-to-an-array", &none, eq(&named(1), &ints), "0 0 1 06 1/4 0 0");
    for (name, id) in [("list", 1), ("array-list", 2), ("mutable-list", 3)] {
        let (table, tree) = goes(&named(id), &crate::bytes::list(&t(INT)));
        list.tree(&format!("rust.named-{}-assigns-to-every-list", name), &table, tree, ASSIGNS);
        let (table, tree) = goes(&crate::bytes::list(&t(INT)), &named(id));
        list.tree(&format!("rust.a-list-assigns-to-named-{}", name), &table, tree, ASSIGNS);
    }
    list.tree("rust.equal-types-of-any-kind-are-comparable", &none, binary(LT, &l(BOOLEAN), &l(BOOLEAN)), "0 1 1 06 0");
    list.tree("rust.char-and-string-are-comparable", &none, binary(LT, &l(CHAR), &l(STRING)), "0 1 1 06 0");
    list.tree("rust.boolean-plus-string-is-string", &none, binary(ADD, &l(BOOLEAN), &l(STRING)), "0 1 1 08 0");
    list.tree("rust.21-for-a-nullable-module", &none, member(0, &leaf(&nullable(&module(0)))), "0 0 1 15 1/21 0 0");
    list.tree("rust.any-for-a-module", &none, member(0, &leaf(&module(0))), "0 1 1 09 0");
    let size = built_in("size");
    list.raw(
        "rust.members-of-pair-hide-a-field",
        vec![5, 0, 0, 22, 0, 1],
        question(&member(size, &leaf(&named(0)))),
        "0 0 1 15 1/22 0 0",
    );
    list.raw(
        "rust.members-of-a-collection-hide-a-field",
        vec![5, 1, 0, 22, 0, 1],
        question(&member(size, &leaf(&named(1)))),
        "0 1 1 00 0",
    );
    let mut letter = Table::new();
    let t = letter.name("T");
    letter.field(t, size, &[LONG]);
    list.tree("rust.a-type-variable-hides-a-field", &letter, member(size, &leaf(&named(t))), "0 1 1 09 0");
    list.tree(
        "rust.an-unknown-member-outside-types-is-a-silent-error",
        &none,
        member(0, &leaf(&named(6))),
        "0 0 1 15 0",
    );
    let builtin = vec![4, 255, 255, 0, 0, 0, 1, 0, 0];
    list.raw("rust.none-of-the-builtins-fits-is-a-silent-error", builtin, question(&call(0, &[l(INT)])), "0 0 1 15 0");
    let twice = [4, 255, 255, 0, 0, 0, 0, 0, 0].repeat(2);
    list.raw("rust.equal-functions-stay-in-the-list", twice, question(&call(0, &[])), "0 0 1 00 1/19 0 2");
    list.tree("rust.minus-on-error-is-reported", &none, unary(MINUS, &l(ERROR)), "0 0 1 15 1/9 0 0");
    let mut one = Table::new();
    one.plain(0, &[CHAR], &[(1, 0, vec![INT]), (2, 0, vec![INT])]);
    let args = [l(STRING), l(ANY)];
    list.tree("rust.any-is-never-a-mismatch", &one, call(0, &args), "0 0 1 07 1/17 1 1");
}
