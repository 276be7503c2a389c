//! Why order 7 promises nothing of two tables, and why an input with another table is not asked.

use crate::{counted, numbered, spelled};
use reading::bytes::NAME;
use reading::name::BUILT_IN;
use reading::words::symbols::Symbols;
use reading::words::table::{check_of, name_count, record_lengths, split, table_number, ClassForm};
use reading::words::undisturbed::{one_more, NotAdded};

const FUNCTION: u8 = 4;

/// The sentence for two tables and what was found of them.
pub fn why(old: &[u8], new: &[u8], found: NotAdded) -> String {
    let words = match found {
        NotAdded::OldRefused(_) => return refused("the old", old),
        NotAdded::NewRefused(_) => return refused("the new", new),
        NotAdded::NotOneMore => not_one_more(old, new),
        NotAdded::NotFunction => format!("what the new table has more is no function, but {}", more(old, new)),
        NotAdded::NotLast => {
            format!("what the new table has more, {}, stands before others of its list", more(old, new))
        }
        NotAdded::EmptyList => format!("what the new table has more, {}, is the first of its list", more(old, new)),
        NotAdded::NotMixed => {
            format!("what the new table has more, {}, is not builtin, and all others of its list are", more(old, new))
        }
    };
    format!("nothing is promised of these tables: {words}")
}

/// A table that is not accepted: which record, at which byte, and why.
fn refused(which: &str, table: &[u8]) -> String {
    let Err(fault) = check_of(table, ClassForm::Now) else { panic!("an accepted table") };
    let place = fault.record.map_or(String::new(), |record| {
        let byte: usize = record_lengths(table).iter().take(record).sum();
        format!("record {record} at byte {byte} (counted from 0): ")
    });
    let older = check_of(table, ClassForm::Older).is_ok();
    let hint = if older { "; it is a table of before order 6, which renew/ writes anew" } else { "" };
    format!("{which} table is refused: {place}{}{hint}", numbered(fault.number))
}

/// The record that the new table has more.
fn more(old: &[u8], new: &[u8]) -> String {
    let at = one_more(old, new).expect("one record more");
    format!("record {at} (counted from 0), {}", spelled::record(&Symbols::of(new), split(new)[at]))
}

fn not_one_more(old: &[u8], new: &[u8]) -> String {
    let (old_records, new_records) = (split(old), split(new));
    let detail = match (beside(&new_records, &old_records), beside(&old_records, &new_records)) {
        (Some(_), Some(_)) => String::from("all of them alike"),
        (Some(more), None) => several(new, &more),
        (None, Some(more)) => format!("the old one has more: {}; perhaps the two are exchanged", list(old, &more)),
        (None, None) => {
            let hint = if names(old) == names(new) { "" } else { EQUAL_NAMES };
            differ(("the old one", old), ("the new one", new)) + hint
        }
    };
    format!(
        "the new one is not the old one with one record more: the old one has {}, the new one {}; {detail}",
        counted(old_records.len(), "record"),
        new_records.len()
    )
}

const EQUAL_NAMES: &str = "; both need the same names, a new one behind all others";

/// The name records of an accepted table.
fn names(table: &[u8]) -> &[u8] {
    &table[..NAME * (name_count(table) - BUILT_IN.len())]
}

/// The places of the records that a table has beside those of another, if it has all of these in their order.
fn beside(records: &[&[u8]], others: &[&[u8]]) -> Option<Vec<usize>> {
    let mut others = others.iter().peekable();
    let more = (0..records.len()).filter(|place| others.next_if_eq(&&records[*place]).is_none()).collect();
    others.next().is_none().then_some(more)
}

/// How many records a list spells.
const SPELLED: usize = 3;

/// The records at these places, of many the first.
fn list(table: &[u8], places: &[usize]) -> String {
    let (symbols, records) = (Symbols::of(table), split(table));
    let one = |place: &usize| format!("record {place}, {}", spelled::record(&symbols, records[*place]));
    let (first, rest) = places.split_at(places.len().min(SPELLED));
    let rest = (!rest.is_empty()).then(|| counted(rest.len(), "other"));
    format!("{} (counted from 0)", first.iter().map(one).chain(rest).collect::<Vec<_>>().join("; "))
}

/// Several records that the new table has more, and how to ask of them.
fn several(new: &[u8], places: &[usize]) -> String {
    let records = split(new);
    let functions = places.iter().filter(|place| records[**place][0] == FUNCTION).count();
    let both = "; what is no function, as a name that one needs, has to stand in both";
    let alone = "; each function is asked by itself, with a table between";
    let hints = [(functions < places.len(), both), (functions > 1, alone)];
    let hints: String = hints.iter().filter(|(said, _)| *said).map(|(_, hint)| *hint).collect();
    format!("the new one has more: {}{hints}", list(new, places))
}

/// The first record in which two tables differ, of which neither begins with the other.
fn differ((first, first_table): (&str, &[u8]), (second, second_table): (&str, &[u8])) -> String {
    let (first_records, second_records) = (split(first_table), split(second_table));
    let at = first_records.iter().zip(&second_records).take_while(|(first, second)| first == second).count();
    let in_first = spelled::record(&Symbols::of(first_table), first_records[at]);
    let in_second = spelled::record(&Symbols::of(second_table), second_records[at]);
    let another = if in_first == in_second { "another " } else { "" };
    format!("record {at} (counted from 0) is {in_first} in {first} and {another}{in_second} in {second}")
}

/// Why a question is not asked whose table this is. Where its names are the first of the old one's, each id that it
/// defines means the same under both.
pub fn other_table(old: &[u8], table: &[u8]) -> Result<(), String> {
    if table_number(table) > 0 {
        return Err(refused("its", table));
    }
    let names = names(table);
    if old.starts_with(names) {
        return Ok(());
    }
    Err(format!("its ids mean other names: {}", differ(("its table", names), ("the old one", old))))
}
