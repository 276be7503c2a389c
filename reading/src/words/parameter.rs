//! What a parameter takes: `is_type_variable`, `param_accepts`.

use super::assign::can_assign_to;
use super::symbols::Symbols;
use super::types::named_id;

/// A name of one capital letter that is not in `types`.
pub fn is_type_variable(symbols: &Symbols, ty: &[u8]) -> bool {
    let Some(name) = named_id(ty) else { return false };
    matches!(symbols.spelling(name), [c] if c.is_ascii_uppercase()) && !symbols.in_types(name)
}

pub fn param_accepts(symbols: &Symbols, param: &[u8], ty: &[u8], vararg: bool) -> bool {
    can_assign_to(symbols, ty, param) || is_type_variable(symbols, param) || vararg
}
