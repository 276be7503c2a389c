//! Document 02's order 7: which tables it is about, how each call that reads the list stands to the new function, and
//! that each part of the condition is needed.

use reading::bytes::*;
use reading::name::NONE;
use reading::words::said;
use reading::words::undisturbed::Stand::*;
use reading::words::undisturbed::*;

const F: u16 = 40;
const P: u16 = 41;
const Q: u16 = 42;
const R: u16 = 43;
const PAGE: u16 = 44;
/// Its superclass is Page.
const SCAN: u16 = 45;

/// A function of the list: visibility, whether it is builtin, result, parameters.
type Function = (u8, bool, Bytes, Vec<Param>);

fn own(result: u8, params: &[Param]) -> Function {
    (0, false, vec![result], params.to_vec())
}

fn builtin(result: u8, params: &[Param]) -> Function {
    (0, true, vec![result], params.to_vec())
}

/// A parameter of a type without body and children.
fn param(name: u16, ty: u8) -> Param {
    (name, 0, vec![ty])
}

/// A table with these functions `f`, of one owner or without one.
fn table(owner: u16, list: &[Function]) -> Table {
    let mut table = Table::with_names(&["f", "p", "q", "r", "Page", "Scan"]);
    table.class(PAGE, NONE, NONE, true);
    table.class(SCAN, PAGE, NONE, true);
    for (visibility, is_builtin, result, params) in list {
        table.function(owner, F, *visibility, *is_builtin, result, params);
    }
    table
}

/// The first table, and the second: with one function more behind the list.
fn tables(owner: u16, list: &[Function], new: &Function) -> (Bytes, Bytes) {
    let longer = [list, &[new.clone()]].concat();
    (table(owner, list).bytes(), table(owner, &longer).bytes())
}

fn int() -> Bytes {
    leaf(&[INT])
}

fn call_f(arguments: &[Bytes]) -> Bytes {
    question(&call(F, arguments))
}

/// How the calls that read the list stand, each with its node. What the two tables say differs only where the condition
/// fails.
fn stands(old: &[u8], new: &[u8], question: &[u8]) -> Vec<(usize, Stand)> {
    let added = added(old, new).expect("the tables are as the order has them");
    let calls = reading_calls(old, new, &added, question).expect("the question is accepted");
    let holds = calls.iter().all(|call| call.stand.holds());
    assert_eq!(is_undisturbed(old, new, &added, question), holds);
    assert!(!holds || said(old, question) == said(new, question), "the answers differ, but {calls:?}");
    calls.iter().map(|call| (call.node, call.stand)).collect()
}

/// How the call `f(..)` stands to one more function.
fn stand(list: &[Function], new: &Function, arguments: &[Bytes]) -> Stand {
    let (old, new) = tables(NONE, list, new);
    let stands = stands(&old, &new, &call_f(arguments));
    let [(0, stand)] = stands[..] else { panic!("{stands:?}") };
    stand
}

/// The same where the answers do differ.
fn disturbed(list: &[Function], new: &Function, arguments: &[Bytes]) -> Stand {
    let (before, after) = tables(NONE, list, new);
    let question = call_f(arguments);
    assert_ne!(said(&before, &question), said(&after, &question));
    stand(list, new, arguments)
}

/// The type by the words, and the diagnostics as kind, node, number.
fn says(table: &[u8], question: &[u8]) -> (Bytes, Vec<(u8, u16, u16)>) {
    let reading::Said::Judged { ty, diagnostics, .. } = said(table, question) else { panic!("refused") };
    (ty, diagnostics.iter().map(|d| (d.kind, d.node, d.number)).collect())
}

#[test]
fn a_builtin_beside_an_own_function_is_dropped() {
    let list = [own(INT, &[param(P, INT)]), builtin(LONG, &[param(P, INT)])];
    let new = builtin(BOOLEAN, &[param(P, INT)]);
    assert_eq!(stand(&list, &new, &[int()]), Dropped);
    // It comes before all else: what does not fit, a name that it does not know, no match.
    for arguments in [vec![], vec![named_arg(Q, &int())], vec![leaf(&[STRING])], vec![int(), int()]] {
        assert_eq!(stand(&list, &new, &arguments), Dropped);
    }
}

/// Among builtins alone a builtin is usable.
#[test]
fn a_builtin_among_builtins_is_not_dropped() {
    let list = [builtin(INT, &[param(P, INT)])];
    assert_eq!(stand(&list, &builtin(LONG, &[param(P, LONG)]), &[int()]), StaysWithOld);
    assert_eq!(stand(&list, &builtin(LONG, &[]), &[int()]), Unfit);
    assert_eq!(disturbed(&list, &builtin(LONG, &[param(P, INT)]), &[int()]), NotLess { new: 2, best: 2 });
    assert_eq!(disturbed(&list, &builtin(LONG, &[param(P, BOOLEAN)]), &[leaf(&[STRING])]), NoMatch);
}

#[test]
fn a_function_that_does_not_fit_in_number() {
    let list = [own(INT, &[param(P, INT)])];
    let two = own(BOOLEAN, &[param(P, INT), param(Q, INT)]);
    assert_eq!(stand(&list, &two, &[int()]), Unfit);
    assert_eq!(stand(&list, &own(BOOLEAN, &[]), &[int()]), Unfit);
    // It comes before names and matches: with the old function alone there are 16 and 17.
    assert_eq!(stand(&list, &two, &[named_arg(R, &int())]), Unfit);
    assert_eq!(stand(&list, &two, &[leaf(&[STRING])]), Unfit);
    // With a default or a vararg it does fit.
    for flag in [DEFAULT, VARARG] {
        let new = own(BOOLEAN, &[param(P, LONG), (Q, flag, vec![INT])]);
        assert_eq!(stand(&list, &new, &[int()]), StaysWithOld);
    }
}

#[test]
fn a_function_that_does_not_match_or_scores_less() {
    let list = [own(INT, &[param(P, INT)]), own(LONG, &[param(P, LONG)])];
    assert_eq!(stand(&list, &own(BOOLEAN, &[param(P, STRING)]), &[int()]), StaysWithOld);
    assert_eq!(stand(&list, &own(BOOLEAN, &[param(P, SHORT)]), &[int()]), StaysWithOld);
    // The best counts, and not the last or the first.
    assert_eq!(stand(&list, &own(BOOLEAN, &[param(P, SHORT)]), &[leaf(&[LONG])]), StaysWithOld);
    // All names known, in another order.
    let list = [own(INT, &[param(P, INT), param(Q, INT)])];
    let new = own(BOOLEAN, &[param(Q, INT), param(P, LONG)]);
    assert_eq!(stand(&list, &new, &[named_arg(P, &int()), named_arg(Q, &int())]), StaysWithOld);
}

#[test]
fn a_name_that_the_new_one_does_not_know() {
    let list = [own(INT, &[param(P, INT), param(Q, INT)])];
    let new = own(BOOLEAN, &[param(P, INT), param(R, INT)]);
    assert_eq!(disturbed(&list, &new, &[int(), named_arg(Q, &int())]), Unknown(2));
    assert_eq!(disturbed(&list, &new, &[named_arg(Q, &int()), named_arg(P, &int())]), Unknown(1));
    let new = own(BOOLEAN, &[param(R, INT), param(F, INT)]);
    assert_eq!(disturbed(&list, &new, &[named_arg(Q, &int()), named_arg(P, &int())]), Unknown(1));
    // It comes before the match: the old one does not match.
    assert_eq!(disturbed(&list, &new, &[int(), named_arg(Q, &leaf(&[STRING]))]), Unknown(2));
    let (before, after) = tables(NONE, &list, &new);
    let question = call_f(&[int(), named_arg(Q, &int())]);
    assert_eq!(says(&before, &question), (vec![INT], vec![]));
    assert_eq!(says(&after, &question), (vec![INT], vec![(16, 2, 2)]));
}

#[test]
fn no_old_function_matches() {
    let list = [own(INT, &[param(P, INT)])];
    let arguments = [leaf(&[STRING])];
    let new = own(BOOLEAN, &[param(P, BOOLEAN)]);
    assert_eq!(disturbed(&list, &new, &arguments), NoMatch);
    let (before, after) = tables(NONE, &list, &new);
    assert_eq!(says(&before, &call_f(&arguments)), (vec![INT], vec![(17, 1, 1)]));
    assert_eq!(says(&after, &call_f(&arguments)), (vec![ERROR], vec![(18, 0, 0)]));
    // The new one matches.
    assert_eq!(disturbed(&list, &own(BOOLEAN, &[param(P, STRING)]), &arguments), NoMatch);
    // A builtin beside an own function is no match, as it is not usable.
    let list = [own(INT, &[param(P, INT)]), builtin(LONG, &[param(P, STRING)])];
    assert_eq!(disturbed(&list, &new, &arguments), NoMatch);
}

/// What has a score matches only where it fits in number.
#[test]
fn an_old_function_that_scores_but_does_not_fit() {
    let list = [own(INT, &[param(P, INT), param(Q, INT)])];
    let new = own(BOOLEAN, &[param(P, BOOLEAN)]);
    assert_eq!(disturbed(&list, &new, &[int()]), NoMatch);
    let (before, after) = tables(NONE, &list, &new);
    assert_eq!(says(&before, &call_f(&[int()])), (vec![ERROR], vec![(15, 0, 1)]));
    assert_eq!(says(&after, &call_f(&[int()])), (vec![BOOLEAN], vec![(17, 1, 1)]));
    // So it is not the best either.
    let list = [own(INT, &[param(P, INT), param(Q, INT)]), own(INT, &[param(P, LONG)])];
    assert_eq!(disturbed(&list, &own(BOOLEAN, &[param(P, SHORT)]), &[int()]), NotLess { new: 1, best: 1 });
}

#[test]
fn a_score_that_is_not_less() {
    let list = [own(INT, &[param(P, INT)])];
    let new = own(BOOLEAN, &[param(Q, INT)]);
    assert_eq!(disturbed(&list, &new, &[int()]), NotLess { new: 2, best: 2 });
    let (before, after) = tables(NONE, &list, &new);
    assert_eq!(says(&before, &call_f(&[int()])), (vec![INT], vec![]));
    assert_eq!(says(&after, &call_f(&[int()])), (vec![INT], vec![(19, 0, 2)]));
    // A higher one takes the call.
    let list = [own(INT, &[param(P, LONG)]), own(INT, &[param(P, SHORT)])];
    assert_eq!(disturbed(&list, &own(BOOLEAN, &[param(P, INT)]), &[int()]), NotLess { new: 2, best: 1 });
    // Without arguments all score 0.
    assert_eq!(disturbed(&[own(INT, &[])], &own(BOOLEAN, &[]), &[]), NotLess { new: 0, best: 0 });
}

/// The answers may be equal nevertheless.
#[test]
fn where_the_condition_fails_the_answers_may_be_equal() {
    let list = [own(INT, &[param(P, INT)]), own(LONG, &[param(P, STRING)])];
    let (new, arguments) = (own(BOOLEAN, &[param(P, CHAR)]), [leaf(&named(PAGE))]);
    assert_eq!(stand(&list, &new, &arguments), NoMatch);
    let (before, after) = tables(NONE, &list, &new);
    assert_eq!(said(&before, &call_f(&arguments)), said(&after, &call_f(&arguments)));
    assert_eq!(says(&before, &call_f(&arguments)).1, [(18, 0, 0)]);
}

#[test]
fn classes_score_along_superclasses() {
    let page = |name: u16| (name, 0, named(PAGE));
    let scan = |name: u16| (name, 0, named(SCAN));
    let arguments = [leaf(&named(SCAN))];
    assert_eq!(stand(&[own(INT, &[scan(P)])], &own(BOOLEAN, &[page(P)]), &arguments), StaysWithOld);
    let taken = NotLess { new: 2, best: 1 };
    assert_eq!(disturbed(&[own(INT, &[page(P)])], &own(BOOLEAN, &[scan(P)]), &arguments), taken);
    assert_eq!(disturbed(&[own(INT, &[scan(P)])], &own(BOOLEAN, &[page(P)]), &[leaf(&named(PAGE))]), NoMatch);
}

/// Inner calls are finished first, and their types are those under the first table.
#[test]
fn each_call_that_reads_the_list_in_the_order_of_the_judgement() {
    let (old, new) = tables(NONE, &[own(INT, &[param(P, INT)])], &own(BOOLEAN, &[param(P, LONG)]));
    let inner = call(F, &[int()]);
    let both = question(&binary(ADD, &call(F, std::slice::from_ref(&inner)), &call(F, &[leaf(&[LONG])])));
    let found = stands(&old, &new, &both);
    assert_eq!(found, [(2, StaysWithOld), (1, StaysWithOld), (4, NotLess { new: 2, best: 1 })]);
    assert_ne!(said(&old, &both), said(&new, &both));
    // The inner call is a String under the second table, and an Int under the first.
    let (old, new) = tables(NONE, &[own(INT, &[param(P, INT)])], &own(STRING, &[param(P, STRING)]));
    let nested = call_f(&[call(F, &[leaf(&[STRING])])]);
    assert_eq!(stands(&old, &new, &nested), [(1, NoMatch), (0, StaysWithOld)]);
    assert_ne!(said(&old, &nested), said(&new, &nested));
}

#[test]
fn method_calls_whose_base_is_the_owner() {
    let (old, new) = tables(PAGE, &[own(INT, &[param(P, INT)])], &own(BOOLEAN, &[param(P, INT)]));
    let tie = NotLess { new: 2, best: 2 };
    let on = |object: &[u8]| question(&method(F, &leaf(object), &[int()]));
    for object in [named(PAGE), nullable(&named(PAGE))] {
        assert_eq!(stands(&old, &new, &on(&object)), [(0, tie)]);
        assert_ne!(said(&old, &on(&object)), said(&new, &on(&object)));
    }
    // No list: a class below the owner has none of its own, the others are not Named, and two Nullables are not taken
    // off.
    for object in [named(SCAN), vec![INT], list(&named(PAGE)), module(PAGE), nullable(&nullable(&named(PAGE)))] {
        assert_eq!(stands(&old, &new, &on(&object)), []);
    }
    // Nor do a call and a method call of another name.
    for other in [call(F, &[int()]), method(P, &leaf(&named(PAGE)), &[int()])] {
        assert_eq!(stands(&old, &new, &question(&other)), []);
    }
    // The base may be a call's result, and the method call an argument.
    let (old, new) = tables(PAGE, &[own(INT, &[param(P, INT)])], &own(BOOLEAN, &[param(P, LONG)]));
    let nested = method(F, &leaf(&named(PAGE)), &[method(F, &leaf(&named(PAGE)), &[int()])]);
    assert_eq!(stands(&old, &new, &question(&nested)), [(2, StaysWithOld), (0, StaysWithOld)]);
}

/// The list of an owner and the one without an owner are two.
#[test]
fn a_method_call_does_not_read_the_list_without_an_owner() {
    let mut table = table(NONE, &[own(INT, &[param(P, INT)])]);
    table.function(PAGE, F, 0, false, &[INT], &[param(P, INT)]);
    let old = table.bytes();
    table.function(NONE, F, 0, false, &[BOOLEAN], &[param(P, INT)]);
    let new = table.bytes();
    assert_eq!(added(&old, &new), Ok(Added { owner: None, name: F, record: 10 }));
    assert_eq!(stands(&old, &new, &question(&method(F, &leaf(&named(PAGE)), &[int()]))), []);
    assert_eq!(stands(&old, &new, &call_f(&[int()])), [(0, NotLess { new: 2, best: 2 })]);
}

#[test]
fn a_call_that_is_not_visited_is_not_asked() {
    let (old, new) = tables(NONE, &[own(INT, &[param(P, INT)])], &own(BOOLEAN, &[param(P, INT)]));
    let inner = [call(F, &[int()])];
    for unvisited in [call(P, &inner), method(F, &int(), &inner), method(F, &leaf(&named(PAGE)), &inner)] {
        assert_eq!(stands(&old, &new, &question(&unvisited)), []);
    }
    // The same call where it is visited.
    assert_eq!(stands(&old, &new, &call_f(&inner)).len(), 2);
    assert_eq!(stands(&old, &new, &question(&method(P, &inner[0], &[]))), [(1, NotLess { new: 2, best: 2 })]);
}

/// Members and operators read a list's first function.
#[test]
fn a_member_and_an_operator_are_no_calls() {
    let (old, new) = tables(PAGE, &[own(INT, &[])], &(3, false, vec![BOOLEAN], vec![]));
    let of_page = question(&member(F, &leaf(&named(PAGE))));
    assert_eq!(stands(&old, &new, &of_page), []);
    assert_eq!(says(&new, &of_page), (function(&[], &[INT]), vec![]));

    const PLUS: u16 = 6;
    let mut table = table(NONE, &[]);
    table.operators(PAGE, 1);
    table.function(PAGE, PLUS, 0, false, &[CHAR], &[]);
    let old = table.bytes();
    table.function(PAGE, PLUS, 0, false, &[BOOLEAN], &[]);
    let new = table.bytes();
    let sum = question(&binary(ADD, &leaf(&named(PAGE)), &int()));
    assert_eq!(stands(&old, &new, &sum), []);
    assert_eq!(says(&new, &sum), (vec![CHAR], vec![]));
}

#[test]
fn a_refused_question_reads_nothing() {
    let (old, new) = tables(NONE, &[own(INT, &[param(P, INT)])], &own(BOOLEAN, &[param(P, INT)]));
    let found = added(&old, &new).unwrap();
    let fine = call_f(&[int()]);
    let questions = [
        (8, vec![]),
        (8, fine[..fine.len() - 1].to_vec()),
        (8, [&fine[..], &[0]].concat()),
        (9, question(&[call(F, &[[2, 0].repeat(63)]), int()].concat())),
        (10, question(&call(F + 6, &[int()]))),
        (10, question_in(NONE, F + 6, false, &call(F, &[int()]))),
        (11, call_f(&[leaf(&nullables(192, &[INT]))])),
    ];
    for (number, question) in questions {
        assert_eq!(reading_calls(&old, &new, &found, &question), Err(number));
        assert!(is_undisturbed(&old, &new, &found, &question));
        assert_eq!(said(&old, &question), reading::Said::Refused(number));
        assert_eq!(said(&new, &question), reading::Said::Refused(number));
    }
    assert!(!is_undisturbed(&old, &new, &found, &fine));
}

// The tables.

/// Two rows of records as tables.
fn tables_of(old: &[Bytes], new: &[Bytes]) -> Result<Added, NotAdded> {
    added(&old.concat(), &new.concat())
}

/// A table with one record or more of each kind, and the list `f` of Page.
fn rich() -> Vec<Bytes> {
    let mut table = table(PAGE, &[own(INT, &[param(P, INT)]), own(INT, &[param(P, LONG)])]);
    table.operators(PAGE, 1);
    table.plain(P, &[INT], &[]);
    table.function(SCAN, F, 0, false, &[INT], &[]);
    table.field(PAGE, Q, &[INT]);
    table.visibility(PAGE, Q, 1);
    table.suspend(NONE, P);
    table.variant(PAGE, R);
    table.list()
}

/// The place of the first function in it: 6 names, 2 classes, an operator set stand before.
const FUNCTIONS: usize = 9;

/// A record `f` of Page or without an owner.
fn record(owner: u16, function: &Function) -> Bytes {
    let mut table = Table::new();
    table.function(owner, F, function.0, function.1, &function.2, &function.3);
    table.bytes()
}

fn with(records: &[Bytes], at: usize, record: &[u8]) -> Vec<Bytes> {
    let mut records = records.to_vec();
    records.insert(at, record.to_vec());
    records
}

/// Behind all other functions, or at any place where no function of its list stands behind it.
#[test]
fn one_function_more() {
    let old = rich();
    let more = record(PAGE, &own(BOOLEAN, &[]));
    for place in FUNCTIONS + 2..=FUNCTIONS + 4 {
        let expected = Added { owner: Some(PAGE), name: F, record: place };
        assert_eq!(tables_of(&old, &with(&old, place, &more)), Ok(expected));
    }
    let other = &old[FUNCTIONS + 2];
    assert_eq!(tables_of(&old, &with(&old, 13, other)), Ok(Added { owner: None, name: P, record: 13 }));
}

/// Of several places where it can stand the last one counts.
#[test]
fn a_record_that_stands_twice() {
    let old = rich();
    let again = old[FUNCTIONS + 1].clone();
    let expected = Added { owner: Some(PAGE), name: F, record: FUNCTIONS + 2 };
    for place in [FUNCTIONS + 1, FUNCTIONS + 2] {
        assert_eq!(tables_of(&old, &with(&old, place, &again)), Ok(expected));
    }
    assert_eq!(tables_of(&old, &with(&old, FUNCTIONS, &again)), Err(NotAdded::NotLast));
    let (old, again) = (with(&old, FUNCTIONS + 2, &again), with(&old, FUNCTIONS + 2, &again));
    let thrice = with(&again, FUNCTIONS + 1, &old[FUNCTIONS + 1]);
    assert_eq!(tables_of(&old, &thrice), Ok(Added { record: FUNCTIONS + 3, ..expected }));
}

#[test]
fn refused_tables() {
    let old = rich();
    let new = with(&old, FUNCTIONS + 2, &record(PAGE, &own(BOOLEAN, &[])));
    let undefined = [old.clone(), vec![vec![8, 46, 0, 40, 0]]].concat();
    let falling = [&new[..], &new[..1]].concat();
    assert_eq!(tables_of(&undefined, &new), Err(NotAdded::OldRefused(4)));
    assert_eq!(tables_of(&old, &falling), Err(NotAdded::NewRefused(3)));
    assert_eq!(tables_of(&undefined, &falling), Err(NotAdded::OldRefused(4)));
    let error = record(PAGE, &own(ERROR, &[]));
    assert_eq!(tables_of(&old, &with(&old, FUNCTIONS + 2, &error)), Err(NotAdded::NewRefused(7)));
    let long = vec![0; 60_001];
    assert_eq!(added(&long, &new.concat()), Err(NotAdded::OldRefused(1)));
}

#[test]
fn not_one_record_more() {
    let old = rich();
    let more = record(PAGE, &own(BOOLEAN, &[]));
    let new = with(&old, FUNCTIONS + 2, &more);
    let mut changed = new.clone();
    changed[FUNCTIONS] = record(PAGE, &own(CHAR, &[param(P, INT)]));
    let mut moved = new.clone();
    moved.swap(FUNCTIONS, FUNCTIONS + 1);
    let replaced = [&old[..FUNCTIONS], &[more.clone()], &old[FUNCTIONS + 1..]].concat();
    for (old, new) in [
        (&old, &old),
        (&new, &old),
        (&old, &with(&new, FUNCTIONS + 2, &more)),
        (&old, &changed),
        (&old, &moved),
        (&old, &replaced),
        (&with(&old, 6, &name_record("g")), &new),
        (&old, &with(&new, 6, &name_record("g"))),
    ] {
        assert_eq!(tables_of(old, new), Err(NotAdded::NotOneMore));
    }
    assert_eq!(tables_of(&[], &[]), Err(NotAdded::NotOneMore));
}

fn name_record(text: &str) -> Bytes {
    Table::with_names(&[text]).bytes()
}

/// One record more of each other kind.
#[test]
fn no_function_more() {
    let old = rich();
    let mut others = Table::with_names(&["g"]);
    others.class(R, NONE, NONE, false);
    others.operators(SCAN, 1);
    others.field(PAGE, R, &[INT]);
    others.visibility(PAGE, R, 1);
    others.suspend(PAGE, F);
    others.variant(PAGE, P);
    let places = [6, 8, 9, 14, 15, 16, 17];
    for (place, other) in places.into_iter().zip(others.list()) {
        assert_eq!(tables_of(&old, &with(&old, place, &other)), Err(NotAdded::NotFunction), "{other:?}");
    }
    assert_eq!(tables_of(&[], &[name_record("g")]), Err(NotAdded::NotFunction));
}

/// What the two tables say differs, though no function but the first is read, or the new one fits nowhere.
#[test]
fn in_front_of_its_list_a_function_disturbs() {
    let private = (3, false, vec![BOOLEAN], vec![]);
    let list = [own(INT, &[param(P, INT)]), own(LONG, &[param(P, LONG)])];
    let old = table(PAGE, &list).bytes();
    let front = table(PAGE, &[private.clone(), list[0].clone(), list[1].clone()]).bytes();
    let middle = table(PAGE, &[list[0].clone(), private, list[1].clone()]).bytes();
    assert_eq!(added(&old, &front), Err(NotAdded::NotLast));
    assert_eq!(added(&old, &middle), Err(NotAdded::NotLast));
    let of_page = question(&member(F, &leaf(&named(PAGE))));
    let call = question(&method(F, &leaf(&named(PAGE)), &[int()]));
    assert_eq!(says(&old, &of_page), (function(&[], &[INT]), vec![]));
    assert_eq!(says(&front, &of_page), (function(&[], &[BOOLEAN]), vec![]));
    assert_eq!(says(&old, &call), (vec![INT], vec![]));
    assert_eq!(says(&front, &call), (vec![INT], vec![(20, 0, 3)]));
}

/// The first function of its owner and name: calls of it were silent, and their arguments unvisited.
#[test]
fn a_new_list_disturbs() {
    let (old, new) = tables(NONE, &[], &own(INT, &[]));
    assert_eq!(added(&old, &new), Err(NotAdded::EmptyList));
    assert_eq!(says(&old, &call_f(&[int()])), (vec![ERROR], vec![]));
    assert_eq!(says(&new, &call_f(&[int()])), (vec![ERROR], vec![(15, 0, 1)]));
    // Functions of that name with an owner are another list.
    let old = rich();
    assert_eq!(tables_of(&old, &with(&old, 13, &record(NONE, &own(INT, &[])))), Err(NotAdded::EmptyList));
}

/// Beside the first function that is not builtin all others drop out.
#[test]
fn an_own_function_beside_builtins_disturbs() {
    let builtins = [builtin(INT, &[param(P, INT)]), builtin(INT, &[param(P, CHAR)])];
    let new = own(INT, &[param(P, INT), param(Q, INT)]);
    let (old, new) = tables(NONE, &builtins, &new);
    assert_eq!(added(&old, &new), Err(NotAdded::NotMixed));
    assert_eq!(says(&old, &call_f(&[int()])), (vec![INT], vec![]));
    assert_eq!(says(&new, &call_f(&[int()])), (vec![ERROR], vec![(15, 0, 1)]));
    // Either one that is builtin, or a list that has one that is not, will do.
    for (list, new) in [
        (&builtins[..], builtin(BOOLEAN, &[])),
        (&[builtins[0].clone(), own(INT, &[])], own(BOOLEAN, &[])),
        (&[own(INT, &[]), builtins[0].clone()], own(BOOLEAN, &[])),
        (&[own(INT, &[]), builtins[0].clone()], builtin(BOOLEAN, &[])),
    ] {
        let (old, new) = tables(NONE, list, &new);
        assert_eq!(added(&old, &new), Ok(Added { owner: None, name: F, record: 8 + list.len() }));
    }
}
