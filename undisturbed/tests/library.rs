//! What is said of two tables, and of a question.

mod common;

use common::*;
use reading::bytes::*;
use reading::name::NONE;
use undisturbed::{Library, Verdict};

/// Why the order promises nothing of two tables.
fn refused(old: &[u8], new: &[u8]) -> String {
    Library::of(old, new).expect_err("the tables are not as the order has them")
}

fn nothing_promised(old: &[Bytes], new: &[Bytes], why: &str) {
    assert_eq!(refused(&old.concat(), &new.concat()), format!("nothing is promised of these tables: {why}"));
}

#[test]
fn a_table_that_is_refused() {
    let [old, new] = two_tables();
    let cut = &old[..old.len() - 1];
    let place = "record 5 at byte 116 (counted from 0): ";
    assert_eq!(refused(cut, &new), format!("the old table is refused: {place}2, malformed or cut record"));
    assert_eq!(refused(&old, cut), format!("the new table is refused: {place}2, malformed or cut record"));
    let place = format!("record 6 at byte {} (counted from 0): ", old.len());
    let falling = [&old[..], &class_record(PAGE, [NONE; 3], NONE, 0)].concat();
    assert_eq!(refused(&old, &falling), format!("the new table is refused: {place}3, kind falls"));
    let undefined = [&old[..], &[8, 44, 0, 40, 0]].concat();
    assert_eq!(refused(&undefined, &[9]), format!("the old table is refused: {place}4, undefined id"));
    assert_eq!(refused(&old, &[0; 60_001]), "the new table is refused: 1, over 60,000 bytes");
}

/// Class records of 8 bytes.
#[test]
fn a_table_of_before_interfaces() {
    let [table, new] = two_tables();
    let older = older(&table).expect("no interface");
    let what = "table is refused: record 4 at byte 104 (counted from 0): 2, malformed or cut record; it is a table of \
                before order 6, which renew/ writes anew";
    assert_eq!(refused(&older, &new), format!("the old {what}"));
    assert_eq!(refused(&table, &older), format!("the new {what}"));
}

/// A table with a record or more of each kind.
fn rich() -> Vec<Bytes> {
    let mut table = library(PAGE, &[own(INT, GAP, INT), own(INT, GAP, LONG)]);
    table.operators(PAGE, 1);
    table.plain(DEPTH, &[INT], &[]);
    table.field(PAGE, GAP, &[INT]);
    table.visibility(PAGE, GAP, 1);
    table.suspend(NONE, DEPTH);
    table.variant(PAGE, DEPTH);
    table.list()
}

fn with(records: &[Bytes], at: usize, record: &[u8]) -> Vec<Bytes> {
    let mut records = records.to_vec();
    records.insert(at, record.to_vec());
    records
}

/// The only record of a table.
fn record(fill: impl Fn(&mut Table)) -> Bytes {
    let mut table = Table::new();
    fill(&mut table);
    let [record] = &table.list()[..] else { panic!("not one record") };
    record.clone()
}

fn name(text: &str) -> Bytes {
    record(|table| {
        table.name(text);
    })
}

/// Why of two tables the new one is not the old one with one record more.
fn is_not(old: &[Bytes], new: &[Bytes], why: &str) {
    let counts = format!("the old one has {} records, the new one {}", old.len(), new.len());
    nothing_promised(old, new, &format!("the new one is not the old one with one record more: {counts}; {why}"));
}

#[test]
fn records_that_are_others() {
    let old = rich();
    is_not(&old, &old, "all of them alike");
    let changed = |place: usize, record: Bytes| [&old[..place], &[record], &old[place + 1..]].concat();
    is_not(
        &old,
        &changed(5, record(|table| table.operators(GAP, 1))),
        "record 5 (counted from 0) is operator set Page in the old one and operator set gap in the new one",
    );
    is_not(
        &old,
        &changed(7, record(|table| table.function(PAGE, WORDS, 0, false, &[CHAR], &[]))),
        "record 7 (counted from 0) is function Page.words in the old one and another function Page.words in the new \
         one",
    );
    is_not(
        &old,
        &changed(9, record(|table| table.field(PAGE, GAP, &[LONG]))),
        "record 9 (counted from 0) is field Page.gap in the old one and another field Page.gap in the new one",
    );
}

/// A name in front of others changes what the ids of all records mean.
#[test]
fn names_that_are_others() {
    let old = library(PAGE, &[own(INT, GAP, INT)]).list();
    let mut new = Table::with_names(&["words", "fonts", "gap", "depth", "Page"]);
    new.class(44, NONE, NONE, true);
    let hint = "both need the same names, a new one behind all others";
    is_not(
        &old,
        &new.list(),
        &format!("record 1 (counted from 0) is name gap in the old one and name fonts in the new one; {hint}"),
    );
    let changed = record(|table| table.function(PAGE, WORDS, 0, false, &[CHAR], &[]));
    is_not(
        &old,
        &[&old[..4], &[name("fonts"), old[4].clone(), changed]].concat(),
        &format!("record 4 (counted from 0) is class Page in the old one and name fonts in the new one; {hint}"),
    );
}

#[test]
fn tables_that_are_exchanged() {
    let new = rich();
    let shorter = [&new[..7], &new[8..]].concat();
    let exchanged = "perhaps the two are exchanged";
    is_not(
        &new,
        &shorter,
        &format!("the old one has more: record 7, function Page.words (counted from 0); {exchanged}"),
    );
    let shorter = [&new[..5], &new[6..12]].concat();
    is_not(
        &new,
        &shorter,
        &format!(
            "the old one has more: record 5, operator set Page; record 12, enum variant Page.depth (counted from 0); \
             {exchanged}"
        ),
    );
}

#[test]
fn several_records_more() {
    let old = rich();
    let both = "what is no function, as a name that one needs, has to stand in both";
    let alone = "each function is asked by itself, with a table between";
    let variants = [GAP, WORDS].map(|name| record(|table| table.variant(PAGE, name)));
    is_not(
        &old,
        &[&old[..], &variants].concat(),
        &format!(
            "the new one has more: record 13, enum variant Page.gap; record 14, enum variant Page.words (counted from \
             0); {both}"
        ),
    );
    // A function whose parameter has a new name.
    let function = |name: u16| record(|table| table.function(PAGE, WORDS, 0, false, &[INT], &[(name, 0, vec![INT])]));
    let named = with(&with(&old, 8, &function(44)), 4, &name("fonts"));
    let more = "record 4, name fonts; record 9, function Page.words";
    is_not(&old, &named, &format!("the new one has more: {more} (counted from 0); {both}"));
    // Two functions, and with the name.
    let two = with(&with(&old, 8, &function(GAP)), 9, &function(DEPTH));
    let more = "record 8, function Page.words; record 9, function Page.words";
    is_not(&old, &two, &format!("the new one has more: {more} (counted from 0); {alone}"));
    let three = with(&with(&two, 10, &function(44)), 4, &name("fonts"));
    let more = "record 4, name fonts; record 9, function Page.words; record 10, function Page.words; 1 other";
    is_not(&old, &three, &format!("the new one has more: {more} (counted from 0); {both}; {alone}"));
}

/// A record more of each kind but functions, and how it is spelled.
#[test]
fn no_function_more() {
    let old = rich();
    let more: [(usize, &str, Bytes); 7] = [
        (4, "name fonts", name("fonts")),
        (5, "class gap", record(|table| table.class(GAP, NONE, NONE, false))),
        (6, "operator set gap", record(|table| table.operators(GAP, 1))),
        (10, "field Page.depth", record(|table| table.field(PAGE, DEPTH, &[INT]))),
        (11, "member visibility Page.depth", record(|table| table.visibility(PAGE, DEPTH, 1))),
        (12, "suspend function words", record(|table| table.suspend(NONE, WORDS))),
        (13, "enum variant Page.words", record(|table| table.variant(PAGE, WORDS))),
    ];
    for (place, spelled, record) in more {
        let why = format!("what the new table has more is no function, but record {place} (counted from 0), {spelled}");
        nothing_promised(&old, &with(&old, place, &record), &why);
    }
}

#[test]
fn a_function_that_is_not_the_last_of_its_list() {
    let old = rich();
    let more = record(|table| table.function(PAGE, WORDS, 0, false, &[BOOLEAN], &[]));
    for place in [6, 7] {
        let why = format!(
            "what the new table has more, record {place} (counted from 0), function Page.words, stands before others \
             of its list"
        );
        nothing_promised(&old, &with(&old, place, &more), &why);
    }
    for place in [8, 9] {
        let new = with(&old, place, &more).concat();
        let old = old.concat();
        let more = format!(
            "the new table has one function more: record {place} (counted from 0), function Page.words, behind 2 \
             others of its list"
        );
        assert_eq!(Library::of(&old, &new).map(|library| library.more()), Ok(more));
    }
}

#[test]
fn a_list_of_its_own() {
    let old = rich();
    let more = record(|table| table.plain(WORDS, &[INT], &[]));
    let why = "what the new table has more, record 9 (counted from 0), function words, is the first of its list";
    nothing_promised(&old, &with(&old, 9, &more), why);
}

#[test]
fn an_own_function_beside_builtins() {
    let builtins = [builtin(INT, GAP, INT), builtin(INT, GAP, LONG)];
    let old = library(NONE, &builtins).list();
    let more = record(|table| table.plain(WORDS, &[INT], &[]));
    let why =
        "what the new table has more, record 7 (counted from 0), function words, is not builtin, and all others of \
               its list are";
    nothing_promised(&old, &with(&old, 7, &more), why);
    let more = record(|table| table.function(NONE, WORDS, 0, true, &[INT], &[]));
    assert!(Library::of(&old.concat(), &with(&old, 7, &more).concat()).is_ok());
}

// Questions.

/// The lines of a question under `words(gap: Int) -> Int` and one function more.
fn lines(more: Function, question: &[u8]) -> Vec<String> {
    let [old, new] = tables(more);
    Library::of(&old, &new).expect("the tables are as the order has them").ask(question).lines()
}

#[test]
fn an_undisturbed_question_says_how_many_calls_read_the_list() {
    let more = || own(BOOLEAN, GAP, BOOLEAN);
    let int = || call(WORDS, &[leaf(&[INT])]);
    assert_eq!(lines(more(), &question(&leaf(&[INT]))), ["undisturbed (no call reads the list)"]);
    assert_eq!(lines(more(), &question(&int())), ["undisturbed (1 call reads the list)"]);
    assert_eq!(lines(more(), &question(&call(WORDS, &[int()]))), ["undisturbed (2 calls read the list)"]);
}

#[test]
fn a_refused_question_says_its_number() {
    let more = || own(BOOLEAN, GAP, BOOLEAN);
    let same = "the answer is the same under both tables";
    let malformed = "refused: 8, over 16,384 bytes, malformed, cut, or bytes behind the tree";
    assert_eq!(lines(more(), &[]), [format!("{malformed}; {same}")]);
    assert_eq!(lines(more(), &question(&call(44, &[]))), [format!("refused: 10, undefined id; {same}")]);
}

#[test]
fn a_name_that_the_new_function_does_not_know() {
    let named = question(&call(WORDS, &[named_arg(GAP, &leaf(&[INT]))]));
    assert_eq!(
        lines(own(BOOLEAN, DEPTH, BOOLEAN), &named),
        [
            "node 0: call of words: the new function does not know gap, the name of argument 1",
            "the answers differ: 0 1 1 00 0 under the old table, 0 0 1 00 1/16 1 1 under the new one"
        ]
    );
}

/// The last line says whether the answers differ.
#[test]
fn no_old_function_that_matches() {
    let why = "no usable function of the old table matches";
    assert_eq!(
        lines(own(BOOLEAN, GAP, BOOLEAN), &words(&[STRING])),
        [
            &format!("node 0: call of words: {why}"),
            "the answers differ: 0 0 1 00 1/17 1 1 under the old table, 0 0 1 15 1/18 0 0 under the new one"
        ]
    );
    // Two builtins without a match: so are three.
    let builtins = [builtin(INT, GAP, INT), builtin(INT, GAP, LONG), builtin(INT, GAP, CHAR)];
    let [old, new] = [&builtins[..2], &builtins].map(|list| library(NONE, list).bytes());
    let library = Library::of(&old, &new).unwrap();
    assert_eq!(
        library.ask(&words(&[STRING])).lines(),
        [format!("node 0: call of words: {why}"), String::from("the answers are equal all the same")]
    );
}

#[test]
fn a_score_that_is_not_less() {
    assert_eq!(
        lines(own(BOOLEAN, DEPTH, INT), &words(&[INT])),
        [
            "node 0: call of words: the new function scores 2, and the best of the old table 2",
            "the answers differ: 0 1 1 00 0 under the old table, 0 0 1 00 1/19 0 2 under the new one"
        ]
    );
    assert_eq!(
        lines(own(BOOLEAN, DEPTH, LONG), &words(&[LONG])),
        [
            "node 0: call of words: the new function scores 2, and the best of the old table 1",
            "the answers differ: 0 1 1 00 0 under the old table, 0 1 1 06 0 under the new one"
        ]
    );
}

/// In the order in which they are finished.
#[test]
fn each_call_where_the_condition_fails_has_a_line() {
    let tie =
        |node: usize| format!("node {node}: call of words: the new function scores 2, and the best of the old table 2");
    let int = || call(WORDS, &[leaf(&[INT])]);
    let sum = question(&binary(ADD, &int(), &call(WORDS, &[int()])));
    let found = lines(own(BOOLEAN, DEPTH, INT), &sum);
    assert_eq!(found[..3], [tie(1), tie(4), tie(3)]);
    assert_eq!(found.len(), 4);
    // A call where it holds has none.
    let sum = question(&binary(ADD, &int(), &call(WORDS, &[])));
    assert_eq!(lines(own(BOOLEAN, DEPTH, INT), &sum)[..1], [tie(1)]);
    assert_eq!(lines(own(BOOLEAN, DEPTH, INT), &sum).len(), 2);
}

#[test]
fn a_method_call_is_named_with_its_owner() {
    let list = [own(INT, GAP, INT), own(INT, GAP, BOOLEAN)];
    let [old, new] = [&list[..1], &list].map(|list| library(PAGE, list).bytes());
    let library = Library::of(&old, &new).unwrap();
    let on_page = |argument: &[u8]| question(&method(WORDS, &leaf(&named(PAGE)), &[argument.to_vec()]));
    let unknown = on_page(&named_arg(DEPTH, &leaf(&[INT])));
    assert_eq!(
        library.ask(&unknown).lines(),
        [
            "node 0: call of Page.words: the new function does not know depth, the name of argument 1",
            "the answers differ: 0 0 1 00 1/16 2 1 under the old table, 0 0 1 15 3/16 2 1/16 2 1/18 0 0 under the new \
             one"
        ]
    );
    assert_eq!(library.ask(&on_page(&leaf(&[INT]))), Verdict::Undisturbed(1));
}
