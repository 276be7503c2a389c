//! `can_assign_to`. "The checks run in the source's order."

use super::symbols::Symbols;
use super::types::{id, inner, is_array, is_numeric, named_id, ANY, ERROR, LIST, NAMED, NOTHING, NULLABLE};

const LIST_NAME: u16 = 1;
const ARRAY_LIST: u16 = 2;
const MUTABLE_LIST: u16 = 3;

/// Document 02, order 2: "Named A now assigns to Named B if B is met climbing from A"; order 6: "Assignability reaches
/// through superclass and interfaces alike".
fn is_below(symbols: &Symbols, class: u16, above: u16) -> bool {
    symbols.reached_from(class).contains(&above)
}

/// "List, ArrayList and MutableList, as names, assign among themselves". A class that is reached is not asked
/// for this again: a class below one of them is no list name.
fn is_list_name(ty: &[u8]) -> bool {
    matches!(named_id(ty), Some(LIST_NAME | ARRAY_LIST | MUTABLE_LIST))
}

/// Document 02, order 2: the climb counts "at every depth where assignability compares types", which is where the method
/// asks itself. What a Pointer, a Map or a Function holds is not compared by it: these are equal or not.
pub fn can_assign_to(symbols: &Symbols, from: &[u8], to: &[u8]) -> bool {
    // "Error and Any assign both ways." "Every numeric type assigns to every other."
    let known = |ty: &[u8]| !matches!(ty[0], ANY | ERROR);
    if from == to || !known(from) || !known(to) || (is_numeric(from) && is_numeric(to)) {
        return true;
    }
    match (from[0], to[0]) {
        // "List assigns to every List; List to Array by element type; Array to Array by element type, size
        // ignored." Document 02, order 5: "All Array rules cover both kinds".
        (LIST, LIST) => return true,
        (LIST, array) if is_array(array) => return can_assign_to(symbols, inner(from), inner(to)),
        (kind, array) if is_array(kind) && is_array(array) => return can_assign_to(symbols, inner(from), inner(to)),
        (_, array) if is_array(array) && matches!(named_id(from), Some(ARRAY_LIST | MUTABLE_LIST)) => return true,
        (_, LIST) if is_list_name(from) => return true,
        (LIST, _) if is_list_name(to) => return true,
        _ if is_list_name(from) && is_list_name(to) => return true,
        (NAMED, NAMED) => return is_below(symbols, id(from), id(to)),
        // A value goes where a Nullable of it is expected; and "Nullable(T) assigns to U whenever T does".
        (_, NULLABLE) => return can_assign_to(symbols, from, inner(to)),
        (NULLABLE, _) => return can_assign_to(symbols, inner(from), to),
        _ => {}
    }
    // "Nullable(Nothing), the null literal, assigns to Int."
    from[0] == NOTHING
}
