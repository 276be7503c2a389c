//! `operator_overload_return`: "only a Named left type. The climb stops at a class without an operator set,
//! even if its superclass has one. A method without a function gives Any." Document 02, order 6: "protected access and
//! operator methods climb superclasses only".

use super::symbols::Symbols;
use super::types::{named_id, ANY};

/// The methods are "6 plus, minus, times, div, mod, eq, ne, lt, gt, le, 16 ge", as the operators 0 to 10 and
/// the mask's bits are: "bit 0 plus to bit 10 ge".
pub const METHODS: u8 = 11;
const PLUS: u16 = 6;

/// The class whose operator set has the operator, climbing from the left type.
pub fn class_with_method(symbols: &Symbols, op: u8, left: &[u8]) -> Option<u16> {
    if op >= METHODS {
        return None;
    }
    let lowest = named_id(left)?;
    for class in std::iter::once(lowest).chain(symbols.climb(lowest)) {
        if symbols.operators(class)? >> op & 1 == 1 {
            return Some(class);
        }
    }
    None
}

pub fn operator_overload_return(symbols: &Symbols, op: u8, left: &[u8]) -> Option<Vec<u8>> {
    let class = class_with_method(symbols, op, left)?;
    let first = symbols.functions(Some(class), PLUS + op as u16).first();
    Some(first.map_or(vec![ANY], |f| f.result.to_vec()))
}
