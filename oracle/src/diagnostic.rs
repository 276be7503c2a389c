//! The Rust's messages as document 01's kinds and numbers.

use crate::rust::{CompileError, ErrorSeverity, Site, LAST_WALK_FIRST_LINE, LAST_WALK_LAST_LINE, SITES};
use reading::Diagnostic;

/// The messages by how they begin; what a message says behind that decides 15, 18 and 20.
const BEGINNINGS: [(&str, u8); 22] = [
    ("cannot apply operator on nullable", 1),
    ("operator '+'", 2),
    ("operator requires numeric", 3),
    ("comparing unrelated", 4),
    ("comparison requires comparable", 5),
    ("logical operator", 6),
    ("bitwise operator", 7),
    ("cannot apply unary", 8),
    ("unary '-'", 9),
    ("unary '!'", 10),
    ("'++'/'--'", 11),
    ("cannot dereference", 12),
    ("'!!'", 13),
    ("calling suspend function", 14),
    ("no overload of", 15),
    ("unknown named argument", 16),
    ("argument ", 17),
    ("ambiguous call", 19),
    ("'{}' is {} and", 20),
    ("cannot access '.'", 21),
    ("unresolved member", 22),
    ("cannot access member", 23),
];

/// The method of the cut text that may say a kind.
fn method_of(kind: u8) -> &'static str {
    match kind {
        1..=7 => "Checker::check_binary",
        8..=13 => "Checker::check_unary",
        14..=19 => "Checker::check_call_args",
        20 => "Checker::check_access",
        _ => "Checker::check_member",
    }
}

fn site_at(line: u32) -> &'static Site {
    match SITES.iter().find(|s| s.line == line) {
        Some(site) => site,
        None => panic!("line {} of the cut text reported, but no report stands there", line),
    }
}

fn unknown(message: &str) -> ! {
    panic!("unknown message: {}", message)
}

/// The number between the last `before` and the end's `after`.
fn number_between(message: &str, before: &str, after: &str) -> u16 {
    let digits = message.strip_suffix(after).and_then(|m| m.rsplit(before).next());
    match digits.and_then(|d| d.parse().ok()) {
        Some(number) => number,
        None => unknown(message),
    }
}

/// What one error of the Rust is; `positions` has each node's place among its call's arguments.
pub fn diagnostic(error: &CompileError, line: u32, positions: &[u16]) -> Diagnostic {
    let message = error.message.as_str();
    let site = site_at(line);
    let node = error.span.start;
    assert!(
        !(LAST_WALK_FIRST_LINE..LAST_WALK_LAST_LINE).contains(&line),
        "the last walk over the chosen overload reported: {}",
        message
    );
    let mut kind = match BEGINNINGS.iter().find(|(text, _)| site.text.starts_with(text)) {
        Some((_, kind)) => *kind,
        None => unknown(message),
    };
    let fixed = site.text.split('{').next().unwrap_or("");
    let warning = error.severity == ErrorSeverity::Warning;
    if !message.starts_with(fixed) || warning != site.warning || warning != (kind == 4) {
        unknown(message);
    }
    let position = positions[node];
    let number = match kind {
        6 => {
            let earlier = SITES.iter().filter(|s| s.text == site.text && s.line < site.line).count();
            1 + earlier as u16
        }
        15 if message.ends_with(" accepts the given argument types") => {
            kind = 18;
            0
        }
        15 => number_between(message, " accepts ", " argument(s)"),
        16 => position,
        17 => {
            let said = message["argument ".len()..].split(' ').next().and_then(|d| d.parse().ok());
            if said != Some(position) {
                unknown(message);
            }
            position
        }
        19 => number_between(message, ": ", " overloads match the arguments"),
        20 => match message.split_whitespace().nth(2) {
            Some("protected") => 1,
            Some("internal") => 2,
            Some("private") => 3,
            _ => unknown(message),
        },
        _ => 0,
    };
    if site.method != method_of(kind) || ((kind == 16 || kind == 17) && position == 0) || (kind == 6 && number > 2) {
        unknown(message);
    }
    Diagnostic { kind, node: node as u16, number }
}
