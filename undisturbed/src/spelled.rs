//! Names and records as text.

use reading::words::symbols::Symbols;
use reading::words::table::or_none;
use reading::words::types::two_bytes;

fn text(bytes: &[u8]) -> String {
    String::from_utf8_lossy(bytes).into_owned()
}

pub fn name(symbols: &Symbols, id: u16) -> String {
    text(symbols.spelling(id))
}

/// "owner, dot, name, or the bare name without an owner".
pub fn member(symbols: &Symbols, owner: Option<u16>, id: u16) -> String {
    match owner {
        Some(owner) => format!("{}.{}", name(symbols, owner), name(symbols, id)),
        None => name(symbols, id),
    }
}

/// A record of an accepted table: its kind and what it is about.
pub fn record(symbols: &Symbols, record: &[u8]) -> String {
    let class = || name(symbols, two_bytes(record, 1));
    let member = || member(symbols, or_none(two_bytes(record, 1)), two_bytes(record, 3));
    match record[0] {
        1 => format!("name {}", text(&record[2..2 + record[1] as usize])),
        2 => format!("class {}", class()),
        3 => format!("operator set {}", class()),
        4 => format!("function {}", member()),
        5 => format!("field {}", member()),
        6 => format!("member visibility {}", member()),
        7 => format!("suspend function {}", member()),
        _ => format!("enum variant {}", member()),
    }
}
