//! `check_member`: "no climb to superclasses; a name found only as a function gives a Function type with no
//! parameters."

use super::access::is_allowed;
use super::judgement::Ruled;
use super::parameter::is_type_variable;
use super::question::Question;
use super::symbols::Symbols;
use super::types::*;

// The built-in names that members are asked by.
const PAIR: u16 = 0;
const LIST_NAME: u16 = 1;
const SET: u16 = 5;
const TO_STRING: u16 = 17;
const HASH_CODE: u16 = 18;
const EQUALS: u16 = 19;
const FIRST: u16 = 20;
const SECOND: u16 = 21;
const SIZE: u16 = 22;
const COUNT: u16 = 23;
const IS_EMPTY: u16 = 24;
const LAST: u16 = 25;
const GET: u16 = 26;
const GET_AT: u16 = 27;
const SET_AT: u16 = 28;
const ADD: u16 = 29;
const PUSH: u16 = 30;
const APPEND: u16 = 31;
const CONTAINS: u16 = 32;
const INDEX_OF: u16 = 33;
const LENGTH: u16 = 34;
const IS_NOT_EMPTY: u16 = 35;
const TRIM: u16 = 36;
const LOWERCASE: u16 = 37;
const UPPERCASE: u16 = 38;
const KEYS: u16 = 39;

pub fn check_member(symbols: &Symbols, question: &Question, object: &[u8], name: u16) -> Ruled {
    let base = non_null(object);
    // "21 nullable member", but of an unknown type.
    if object[0] == NULLABLE && !matches!(base[0], ANY | ERROR) {
        return Ruled::reported([ERROR], 21);
    }
    match base[0] {
        // "A Module base of a member gives Any."
        MODULE | ANY => Ruled::clean([ANY]),
        NAMED => named_member(symbols, question, base, name),
        STRING => known(string_member(name)),
        LIST => known(element_member(inner(base), name)),
        kind if is_array(kind) => known(element_member(inner(base), name)),
        MAP => known(map_member(name)),
        // "23 no members".
        _ => Ruled::reported([ERROR], 23),
    }
}

/// The type, or "22 unresolved".
fn known(ty: Option<Vec<u8>>) -> Ruled {
    match ty {
        Some(ty) => Ruled::clean(ty),
        None => Ruled::reported([ERROR], 22),
    }
}

/// "Visibility of members is looked up for Named bases only." "20 access (visibility)".
fn named_member(symbols: &Symbols, question: &Question, base: &[u8], name: u16) -> Ruled {
    let owner = id(base);
    let mut ruled = by_owner(symbols, base, owner, name);
    if let Some(visibility) = symbols.visibility(owner, name) {
        if !is_allowed(symbols, question, visibility, owner) {
            ruled.reports.insert(0, (20, visibility as u16));
        }
    }
    ruled
}

fn by_owner(symbols: &Symbols, base: &[u8], owner: u16, name: u16) -> Ruled {
    if is_type_variable(symbols, base) {
        return Ruled::clean(variable_member(name));
    }
    match owner {
        PAIR => return known(pair_member(name)),
        LIST_NAME..=SET => return known(collection_member(name)),
        _ => {}
    }
    if let Some(field) = symbols.field(owner, name) {
        return Ruled::clean(field);
    }
    if let Some(function) = symbols.functions(Some(owner), name).first() {
        return Ruled::clean([&[FUNCTION, 0], function.result].concat());
    }
    if symbols.is_variant(owner, name) {
        return Ruled::clean(base);
    }
    // An unknown member of a name that is not in `types` is not reported.
    Ruled::unless(!symbols.in_types(owner), [ERROR], 22)
}

fn variable_member(name: u16) -> [u8; 1] {
    match name {
        TO_STRING => [STRING],
        HASH_CODE => [INT],
        EQUALS => [BOOLEAN],
        _ => [ANY],
    }
}

fn pair_member(name: u16) -> Option<Vec<u8>> {
    match name {
        FIRST | SECOND => Some(vec![ANY]),
        TO_STRING => Some(vec![STRING]),
        _ => None,
    }
}

/// List, ArrayList, MutableList, Array and Set, as names.
fn collection_member(name: u16) -> Option<Vec<u8>> {
    match name {
        SIZE | COUNT | INDEX_OF => Some(vec![INT]),
        IS_EMPTY | CONTAINS => Some(vec![BOOLEAN]),
        FIRST | LAST | GET | GET_AT => Some(vec![ANY]),
        SET_AT | ADD | PUSH | APPEND => Some(vec![UNIT]),
        _ => None,
    }
}

fn string_member(name: u16) -> Option<Vec<u8>> {
    match name {
        LENGTH | SIZE => Some(vec![INT]),
        IS_EMPTY | IS_NOT_EMPTY => Some(vec![BOOLEAN]),
        TRIM | LOWERCASE | UPPERCASE => Some(vec![STRING]),
        _ => None,
    }
}

/// Of a List or an Array.
fn element_member(element: &[u8], name: u16) -> Option<Vec<u8>> {
    match name {
        SIZE | COUNT => Some(vec![INT]),
        IS_EMPTY => Some(vec![BOOLEAN]),
        FIRST | LAST | GET | GET_AT => Some(element.to_vec()),
        SET_AT => Some(vec![UNIT]),
        _ => None,
    }
}

fn map_member(name: u16) -> Option<Vec<u8>> {
    match name {
        SIZE => Some(vec![INT]),
        KEYS => Some(vec![LIST, ANY]),
        _ => None,
    }
}
