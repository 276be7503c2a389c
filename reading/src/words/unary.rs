//! `check_unary`: "NotNull gives Error and a diagnostic on Int; a nullable operand is reported earlier."

use super::judgement::Ruled;
use super::types::*;

// The operators in `UnOp` order.
const MINUS: u8 = 0;
const NOT: u8 = 1;
const INCREMENT: u8 = 2;
const DECREMENT: u8 = 3;
const ADDR_OF: u8 = 4;
const DEREFERENCE: u8 = 5;
const NOT_NULL: u8 = 6;

pub fn check_unary(op: u8, operand: &[u8]) -> Ruled {
    let kind = operand[0];
    if kind == NULLABLE {
        return Ruled::reported([ERROR], 8);
    }
    let number = is_numeric(operand) || kind == ANY;
    match op {
        MINUS => Ruled::unless(number, operand, 9),
        NOT => Ruled::unless(matches!(kind, BOOLEAN | ANY), [BOOLEAN], 10),
        INCREMENT | DECREMENT => Ruled::unless(number, operand, 11),
        ADDR_OF => Ruled::clean([&[POINTER], operand].concat()),
        // "Dereference answers with a part of the operand".
        DEREFERENCE if kind == POINTER => Ruled::clean(inner(operand)),
        DEREFERENCE => Ruled::reported([ERROR], 12),
        // "the NotNull arm for a nullable operand is never reached".
        NOT_NULL => Ruled::reported([ERROR], 13),
        other => panic!("{} is no unary operator", other),
    }
}
