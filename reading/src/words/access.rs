//! `check_access`. "an empty owner blocks nothing, nor does Internal where either package is unknown."

use super::question::Question;
use super::symbols::Symbols;

pub const PUBLIC: u8 = 0;
pub const PROTECTED: u8 = 1;
pub const INTERNAL: u8 = 2;
pub const PRIVATE: u8 = 3;

/// Whether the script may use a member of this visibility.
pub fn is_allowed(symbols: &Symbols, question: &Question, visibility: u8, owner: u16) -> bool {
    match visibility {
        PUBLIC => true,
        PROTECTED => question.current.is_some_and(|class| class == owner || is_subclass(symbols, class, owner)),
        INTERNAL => match (question.package, symbols.package(owner)) {
            (Some(here), Some(there)) => here == there,
            _ => true,
        },
        PRIVATE => question.current == Some(owner),
        other => panic!("{} is no visibility", other),
    }
}

/// Whether a class is met climbing from another along superclasses. Document 02, order 6: "protected access and operator
/// methods climb superclasses only".
pub fn is_subclass(symbols: &Symbols, class: u16, above: u16) -> bool {
    symbols.climb(class).any(|met| met == above)
}
