//! `check_binary`.

use super::assign::can_assign_to;
use super::judgement::Ruled;
use super::operator::operator_overload_return;
use super::symbols::Symbols;
use super::types::*;

// The operators in `BinOp` order.
const ADD: u8 = 0;
const MOD: u8 = 4;
const EQ: u8 = 5;
const NE: u8 = 6;
const LT: u8 = 7;
const GE: u8 = 10;
const AND: u8 = 11;
const OR: u8 = 12;
const BIT_AND: u8 = 13;
const USHR: u8 = 18;
const ASSIGN: u8 = 19;
const TO: u8 = 20;
const IS: u8 = 21;
const AS: u8 = 22;

const PAIR: u16 = 0;

pub fn check_binary(symbols: &Symbols, op: u8, left: &[u8], right: &[u8]) -> Ruled {
    // "an Error operand gives Error silently, before operator methods; these come before the nullable check."
    if left[0] == ERROR || right[0] == ERROR {
        return Ruled::clean([ERROR]);
    }
    if let Some(result) = operator_overload_return(symbols, op, left) {
        return Ruled::clean(result);
    }
    // "Assign, To, Is and As report nullable operands too."
    let nullable = left[0] == NULLABLE || right[0] == NULLABLE;
    if nullable && !matches!(op, EQ | NE | AND | OR) {
        return Ruled::reported([ERROR], 1);
    }
    match op {
        ADD => sum(left, right),
        ADD..=MOD => arithmetic(left, right),
        EQ | NE => equality(symbols, left, right),
        LT..=GE => comparison(left, right),
        AND | OR => logical(left, right),
        BIT_AND..=USHR => bitwise(left, right),
        // "`To`" makes a Pair; `Is` asks; an assignment and a cast have the right type.
        ASSIGN | AS => Ruled::clean(right),
        TO => Ruled::clean(named(PAIR)),
        IS => Ruled::clean([BOOLEAN]),
        other => panic!("{} is no binary operator", other),
    }
}

fn either(left: &[u8], right: &[u8], is: impl Fn(&[u8]) -> bool) -> bool {
    is(left) || is(right)
}

fn floats(left: &[u8], right: &[u8]) -> bool {
    either(left, right, |ty| matches!(ty[0], FLOAT | DOUBLE))
}

/// "Long + Long is Int." "Double + Double is Float." "Any + Int is String."
fn sum(left: &[u8], right: &[u8]) -> Ruled {
    if is_numeric(left) && is_numeric(right) {
        return Ruled::clean([if floats(left, right) { FLOAT } else { INT }]);
    }
    if either(left, right, |ty| matches!(ty[0], STRING | ANY)) {
        return Ruled::clean([STRING]);
    }
    Ruled::reported([ERROR], 2)
}

/// "Long − Long is Long."
fn arithmetic(left: &[u8], right: &[u8]) -> Ruled {
    if !(is_numeric(left) && is_numeric(right)) {
        return Ruled::reported([ERROR], 3);
    }
    let long = either(left, right, |ty| ty[0] == LONG);
    Ruled::clean([if floats(left, right) {
        FLOAT
    } else if long {
        LONG
    } else {
        INT
    }])
}

/// A Char and a String compare with each other.
fn char_and_string(left: &[u8], right: &[u8]) -> bool {
    matches!((left[0], right[0]), (CHAR, STRING) | (STRING, CHAR))
}

/// "4 unrelated comparison (warning)". Document 02, order 2: "Overloads, comparisons and clean rules take the new rule".
fn equality(symbols: &Symbols, left: &[u8], right: &[u8]) -> Ruled {
    let assigns = |from: &[u8], to: &[u8]| can_assign_to(symbols, from, to);
    let related = assigns(left, right) || assigns(right, left) || char_and_string(left, right);
    Ruled::unless(related, [BOOLEAN], 4)
}

/// "5 not comparable". Assignability is not asked.
fn comparison(left: &[u8], right: &[u8]) -> Ruled {
    let numbers = is_numeric(left) && is_numeric(right);
    let unknown = either(left, right, |ty| ty[0] == ANY);
    Ruled::unless(numbers || unknown || left == right || char_and_string(left, right), [BOOLEAN], 5)
}

/// "6 logical (1 left, 2 right)".
fn logical(left: &[u8], right: &[u8]) -> Ruled {
    let mut ruled = Ruled::clean([BOOLEAN]);
    for (number, ty) in [(1, left), (2, right)] {
        if !matches!(ty[0], BOOLEAN | ANY) {
            ruled.reports.push((6, number));
        }
    }
    ruled
}

/// "A bitwise operator gives the left type, reported or not."
fn bitwise(left: &[u8], right: &[u8]) -> Ruled {
    let unknown = either(left, right, |ty| ty[0] == ANY);
    Ruled::unless((is_integer(left) && is_integer(right)) || unknown, left, 7)
}
