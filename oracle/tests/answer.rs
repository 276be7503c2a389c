//! The answer, the lent buffer, the program's input, the compared domain.

use oracle::answer::{said_inside, Outside, Run};
use oracle::domain::outside;
use oracle::{answer, in_domain, printed, printed_by, program, Source};
use reading::bytes::*;
use reading::gen::boundary::{diagnostics_case, most_diagnostics, table_of_length};
use reading::name::NONE;
use reading::{Answer, Said};

fn one_diagnostic() -> Bytes {
    question(&unary(NOT_NULL, &leaf(&[INT])))
}

#[test]
fn twelve_exactly_when_five_times_the_diagnostics_exceed_the_buffer() {
    for len in 0..12 {
        let mut buffer = vec![7; len];
        let a = answer(&[], &one_diagnostic(), &mut buffer);
        if len < 5 {
            assert_eq!(a, Answer::refused(12));
            assert!(buffer.iter().all(|&b| b == 0));
        } else {
            assert_eq!((a.number, a.pass, a.len, a.count), (0, 0, 1, 1));
            assert_eq!(buffer[..5], [13, 0, 0, 0, 0]);
            assert!(buffer[5..].iter().all(|&b| b == 0));
        }
    }
}

#[test]
fn refusals_and_passes_leave_zeros_everywhere() {
    for (question, number) in [(vec![], 8), (question(&leaf(&[INT])), 0)] {
        let mut buffer = vec![7; 40];
        let a = answer(&[], &question, &mut buffer);
        assert_eq!((a.number, a.pass, a.count), (number, (number == 0) as u8, 0));
        assert!(buffer.iter().all(|&b| b == 0) && a.ty[a.len..].iter().all(|&b| b == 0));
    }
}

#[test]
fn the_fullest_program_buffer_and_one_diagnostic_more() {
    for (count, number) in [(13_106, 0), (13_107, 0), (13_108, 12)] {
        let (table, question) = diagnostics_case(count);
        let mut buffer = vec![0; 65_535];
        let a = answer(&table, &question, &mut buffer);
        assert_eq!((a.number, a.count), (number, if number == 0 { count } else { 0 }));
        let lines = printed(&table, &question).lines().count();
        assert_eq!(lines, if number == 0 { 1 + count } else { 1 });
    }
}

#[test]
fn more_diagnostics_than_two_bytes_count() {
    let (table, question) = most_diagnostics();
    let mut buffer = vec![0; 1_000_000];
    let a = answer(&table, &question, &mut buffer);
    // 4,613 overloads, 31 unknown names, 2 calls without a match.
    assert_eq!((a.number, a.count), (0, 4_613 * 31 + 2));
    assert_eq!(buffer[5 * a.count - 5..5 * a.count], [18, 0, 0, 0, 0]);
    assert_eq!(answer(&table, &question, &mut buffer[..65_535]), Answer::refused(12));
}

#[test]
fn tables_of_60000_bytes_are_read_and_of_60001_refused() {
    for kind in [1, 5, 7] {
        for (len, number) in [(59_999, 0), (60_000, 0), (60_001, 1)] {
            let table = table_of_length(len, kind);
            assert_eq!((table.len(), reading::words::table::table_number(&table)), (len, number));
        }
    }
}

#[test]
fn the_program_judges_both_as_empty_where_the_input_is_too_short() {
    let mut full = vec![5, 0, 7, 255, 255, 0, 0];
    full.extend(question(&leaf(&[INT])));
    assert_eq!(program(&full), "0 1 1 00 0\n");
    for len in 0..7 {
        assert_eq!(program(&full[..len]), "8 0 0 - 0\n");
    }
    // A whole faulty table draws its number; a cut one is not read.
    assert_eq!(program(&[2, 0, 9, 9]), "2 0 0 - 0\n");
    assert_eq!(program(&[3, 0, 9, 9]), "8 0 0 - 0\n");
}

#[test]
fn every_program_input_of_up_to_2_bytes_is_an_empty_question() {
    for a in 0..=255 {
        assert_eq!(program(&[a]), "8 0 0 - 0\n");
        for b in 0..=255 {
            assert_eq!(program(&[a, b]), "8 0 0 - 0\n");
        }
    }
}

#[test]
fn the_compared_domain_leaves_out_a_base_that_is_not_named_and_spells_an_owner() {
    let mut table = Table::new();
    let int = table.name("Int");
    table.function(int, 0, 0, false, &[STRING], &[]);
    let table = table.bytes();
    let on = |ty: &[u8]| question(&method(0, &leaf(ty), &[]));
    assert!(!in_domain(&table, &on(&[INT])));
    assert!(!in_domain(&table, &on(&nullable(&[INT]))));
    assert!(in_domain(&table, &on(&nullable(&nullable(&[INT])))));
    assert!(in_domain(&table, &on(&named(int))));
    assert!(in_domain(&table, &on(&[LONG])));
    assert!(in_domain(&table, &question(&leaf(&[INT]))));
    // What the Rust does there; document 01 has Any.
    assert_eq!(printed(&table, &on(&[INT])), "0 1 1 08 0\n");
    assert_eq!(printed(&table, &on(&[LONG])), "0 1 1 09 0\n");
    // An unvisited node is no base.
    let hidden = question(&method(0, &leaf(&[LONG]), &[method(0, &leaf(&[INT]), &[])]));
    assert!(in_domain(&table, &hidden));
}

#[test]
fn each_kind_of_owner_counts_for_the_domain() {
    let ask = question(&member(22, &leaf(&[STRING])));
    for kind in 4..=8 {
        let mut table = Table::new();
        let string = table.name("String");
        match kind {
            4 => table.function(string, 0, 0, false, &[INT], &[]),
            5 => table.field(string, 0, &[INT]),
            6 => table.visibility(string, 22, 3),
            7 => table.suspend(string, 0),
            _ => table.variant(string, 0),
        }
        assert!(!in_domain(&table.bytes(), &ask));
    }
    let mut table = Table::new();
    let string = table.name("String");
    table.class(string, NONE, NONE, true);
    table.operators(string, 1);
    assert!(in_domain(&table.bytes(), &ask));
    // Visibility of a member of a String: the Rust looks it up, document 01 does not.
    table.visibility(string, 22, 3);
    assert_eq!(printed(&table.bytes(), &ask), "0 0 1 00 1\n20 0 3\n");
}

/// A table whose class 40 has these parents; 41 has a record before it.
fn with_parents(parents: [u16; 3], in_types: bool) -> Table {
    let mut table = Table::with_names(&["Scan", "Page", "f"]);
    table.class(41, NONE, NONE, in_types);
    table.class_below(40, parents, NONE, in_types);
    table
}

fn with_superclass(superclass: u16, in_types: bool) -> Table {
    with_parents([superclass, NONE, NONE], in_types)
}

#[test]
fn the_compared_domain_leaves_out_tables_with_a_superclass() {
    let ask = question(&leaf(&[INT]));
    for in_types in [false, true] {
        assert!(in_domain(&with_superclass(NONE, in_types).bytes(), &ask));
        // With a record, without one, and a built-in name.
        for superclass in [41, 42, 0] {
            let table = with_superclass(superclass, in_types).bytes();
            assert!(!in_domain(&table, &ask));
            assert_eq!(Run::inside(&table, &ask).err(), Some(Outside::Superclass));
        }
    }
    // Only superclasses count: the same id as package, owner, class of an operator set.
    let mut table = with_superclass(NONE, true);
    table.class(42, NONE, 41, true);
    table.operators(40, 1);
    table.function(41, 40, 1, false, &[INT], &[(41, 0, named(40))]);
    table.field(40, 41, &named(41));
    assert!(in_domain(&table.bytes(), &ask));
    // A class behind all others, and the last record of the table.
    table.class(0, 42, NONE, false);
    assert!(!in_domain(&table.bytes(), &ask));
}

/// Document 02, order 6: "Runs beside the Rust use only 65,535 there."
#[test]
fn the_compared_domain_leaves_out_tables_with_an_interface() {
    let ask = question(&leaf(&[INT]));
    for in_types in [false, true] {
        // With a record, without one, and a built-in name, in one place and in both.
        for parents in [[NONE, 41, NONE], [NONE, NONE, 41], [NONE, 42, NONE], [NONE, NONE, 0], [NONE, 41, 41]] {
            let table = with_parents(parents, in_types).bytes();
            assert!(!in_domain(&table, &ask));
            assert_eq!(Run::inside(&table, &ask).err(), Some(Outside::Interface));
        }
        let both = with_parents([41, 42, NONE], in_types).bytes();
        assert_eq!(Run::inside(&both, &ask).err(), Some(Outside::Superclass));
    }
    // A refused table is inside: an undefined interface, and a late one.
    for interface in [43, 40] {
        assert!(in_domain(&with_parents([NONE, interface, NONE], true).bytes(), &ask));
    }
    // A class behind all others, and the last record of the table.
    let mut table = with_superclass(NONE, true);
    table.class_below(0, [NONE, NONE, 42], NONE, false);
    assert!(!in_domain(&table.bytes(), &ask));
}

#[test]
fn what_the_rust_says_of_a_superclass_and_what_the_words_say() {
    let mut table = with_superclass(41, true);
    table.plain(42, &[BOOLEAN], &[(0, 0, named(41))]);
    let (table, ask) = (table.bytes(), question(&call(42, &[leaf(&named(40))])));
    assert_eq!(printed(&table, &ask), "0 0 1 06 1\n17 1 1\n");
    assert_eq!(printed_by(&table, &ask), (Source::Words, String::from("0 1 1 06 0\n")));
    assert_eq!(said_inside(&table, &ask), None);
}

/// What leaves a call of f(args) out of the domain, under these overloads of f (43) with parameters p (40), q (41), r (42).
fn call_is_outside(overloads: &[&[Param]], args: &[Bytes]) -> Option<Outside> {
    let mut table = Table::with_names(&["p", "q", "r", "f", "C"]);
    for params in overloads {
        table.plain(43, &[CHAR], params);
        table.function(44, 43, 0, false, &[CHAR], params);
    }
    // The same as a call and as a method call.
    let of = |tree: Bytes| Run::inside(&table.bytes(), &question(&tree)).err();
    let why = of(call(43, args));
    assert_eq!(of(method(43, &leaf(&named(44)), args)), why);
    assert_eq!(of(method(43, &leaf(&nullable(&named(44))), args)), why);
    why
}

#[test]
fn the_compared_domain_leaves_out_a_call_with_two_unnamed_arguments() {
    let (p, q, r): (Param, Param, Param) = ((40, 0, vec![INT]), (41, 1, vec![INT]), (42, 3, vec![INT]));
    let params: [Param; 3] = [p, q, r];
    let (int, by_name) = (leaf(&[INT]), |id: u16| named_arg(id, &leaf(&[INT])));
    for args in [vec![], vec![int.clone()], vec![by_name(41), int.clone(), by_name(40)]] {
        assert_eq!(call_is_outside(&[&params], &args), None);
    }
    for args in [
        vec![int.clone(), int.clone()],
        vec![int.clone(), by_name(40), int.clone()],
        vec![int.clone(), by_name(40), by_name(41), by_name(42), int.clone()],
    ] {
        assert_eq!(call_is_outside(&[&params], &args), Some(Outside::UnnamedArguments));
    }
    // None fits, and nothing is named.
    assert_eq!(call_is_outside(&[&[]], &[int.clone()]), None);
    assert_eq!(call_is_outside(&[&[]], &[int.clone(), int]), Some(Outside::UnnamedArguments));
}

#[test]
fn the_compared_domain_leaves_out_a_call_that_reads_a_vararg_that_is_not_last() {
    let last: &[Param] = &[(40, 0, vec![INT]), (41, 2, vec![INT])];
    let first: &[Param] = &[(40, 2, vec![INT]), (41, 0, vec![INT])];
    let both: &[Param] = &[(40, 2, vec![INT]), (41, 2, vec![INT])];
    let args = [leaf(&[INT])];
    assert_eq!(call_is_outside(&[last], &args), None);
    for lists in [vec![first], vec![both], vec![last, first], vec![first, last]] {
        assert_eq!(call_is_outside(&lists, &args), Some(Outside::VarargNotLast));
        assert_eq!(call_is_outside(&lists, &[]), Some(Outside::VarargNotLast));
    }
    // Of a builtin that drops out, too; not of a list that no visited call reads.
    let mut table = Table::with_names(&["p", "q", "f", "g"]);
    table.plain(42, &[CHAR], last);
    table.function(NONE, 43, 0, true, &[CHAR], first);
    let ask = |name: u16| question(&call(name, &args));
    assert!(in_domain(&table.bytes(), &ask(42)));
    table.plain(43, &[CHAR], last);
    assert_eq!(Run::inside(&table.bytes(), &ask(43)).err(), Some(Outside::VarargNotLast));
    assert!(in_domain(&table.bytes(), &question(&leaf(&[INT]))));
    let hidden = question(&method(42, &leaf(&[LONG]), &[call(43, &args)]));
    assert!(in_domain(&table.bytes(), &hidden));
}

#[test]
fn the_compared_domain_leaves_out_a_call_with_a_named_argument_where_no_overload_matches() {
    let ints: &[Param] = &[(40, 0, vec![INT]), (41, 0, vec![INT])];
    let strings: &[Param] = &[(40, 0, vec![STRING]), (41, 0, vec![INT])];
    let open: &[Param] = &[(40, 0, vec![INT]), (41, 2, vec![INT])];
    let args = |p: u8, q: u8| [named_arg(41, &leaf(&[q])), leaf(&[p])];
    let out = Some(Outside::NamedNoMatch);
    for (lists, p, q, why) in [
        (vec![ints], INT, LONG, None),
        (vec![ints], INT, ANY, None),
        (vec![ints], STRING, INT, out),
        (vec![ints], INT, STRING, out),
        (vec![ints, strings], STRING, INT, None),
        (vec![ints, strings], BOOLEAN, INT, out),
        (vec![open], INT, STRING, None),
        (vec![open], STRING, STRING, out),
    ] {
        assert_eq!(call_is_outside(&lists, &args(p, q)), why, "{} {}", p, q);
    }
    let unknown = [named_arg(42, &leaf(&[INT])), leaf(&[INT])];
    assert_eq!(call_is_outside(&[ints], &unknown), out);
    assert_eq!(call_is_outside(&[ints, &[(40, 0, vec![INT]), (42, 0, vec![INT])]], &unknown), None);
    // None fits.
    assert_eq!(call_is_outside(&[ints], &[named_arg(41, &leaf(&[INT]))]), out);
    // A left-over argument matches.
    let left_over = [named_arg(40, &leaf(&[INT])), named_arg(41, &leaf(&[INT])), leaf(&[STRING])];
    assert_eq!(call_is_outside(&[open], &left_over), None);
    // A list that is empty is not read.
    let mut table = Table::with_names(&["p"]);
    table.plain(1, &[CHAR], ints);
    let tree = call(0, &[named_arg(40, &call(1, &[leaf(&[INT]), leaf(&[INT])]))]);
    assert!(in_domain(&table.bytes(), &question(&tree)));
}

/// Whether the domain holds is asked before any message is read: these would stop the reading of messages.
#[test]
fn the_compared_domain_reads_no_message() {
    let mut table = Table::with_names(&["p", "q"]);
    table.plain(0, &[CHAR], &[(40, 0, vec![INT]), (41, 0, vec![STRING])]);
    for (count, why) in [(1, None), (2, Some(Outside::UnnamedArguments))] {
        let (table, args) = (table.bytes(), vec![leaf(&[STRING]); count]);
        let mut run = Run::of(&table, &question(&call(0, &args)));
        assert_eq!(run.judged.lines.len(), 1);
        run.judged.lines[0] = 1;
        assert_eq!(outside(&run, &table), why);
        let read = std::panic::catch_unwind(std::panic::AssertUnwindSafe(|| run.diagnostics()));
        assert!(read.is_err());
    }
}

#[test]
fn what_the_rust_says_of_own_parameters_and_what_the_words_say() {
    let mut table = Table::with_names(&["p", "q", "f"]);
    table.plain(42, &[CHAR], &[(40, 0, vec![INT]), (41, 0, vec![STRING])]);
    table.plain(42, &[BOOLEAN], &[(40, 0, vec![INT]), (41, 0, vec![INT])]);
    let (table, ask) = (table.bytes(), question(&call(42, &[leaf(&[INT]), leaf(&[STRING])])));
    assert_eq!(printed(&table, &ask), "0 0 1 15 1\n18 0 0\n");
    assert_eq!(printed_by(&table, &ask), (Source::Words, String::from("0 1 1 07 0\n")));
    assert_eq!(said_inside(&table, &ask), None);
}

#[test]
fn a_refused_case_is_inside() {
    assert!(in_domain(&[0], &[]) && in_domain(&[], &[]));
    // Also where the table has a superclass: a refused question, and a refused table.
    let mut table = with_superclass(41, true);
    assert!(in_domain(&table.bytes(), &[]));
    assert_eq!(said_inside(&table.bytes(), &[]), Some(Said::Refused(8)));
    table.class(42, 42, NONE, true);
    assert_eq!(said_inside(&table.bytes(), &question(&leaf(&[INT]))), Some(Said::Refused(6)));
}

#[test]
fn numbers_by_themselves() {
    assert_eq!(reading::words::table::table_number(&[9]), 2);
    assert_eq!(reading::words::question::question_number(&[], &question(&leaf(&named(40)))), 10);
    let mut table = Table::new();
    table.name("a");
    assert_eq!(reading::words::question::question_number(&table.bytes(), &question(&leaf(&named(40)))), 0);
}
