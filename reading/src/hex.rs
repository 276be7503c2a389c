//! Bytes as text.

use crate::bytes::Bytes;
use std::fmt::Write;

/// Bytes in hex; a part that is repeated stands once with `*` and how often, and `.` parts such runs.
pub fn hex(bytes: &[u8]) -> String {
    if bytes.is_empty() {
        return "-".to_string();
    }
    let mut parts: Vec<String> = Vec::new();
    let mut plain = String::new();
    let mut at = 0;
    while at < bytes.len() {
        let (period, times) = best_run(&bytes[at..]);
        if period * times >= 10 && times >= 3 {
            if !plain.is_empty() {
                parts.push(std::mem::take(&mut plain));
            }
            let one: String = bytes[at..at + period].iter().map(|b| format!("{:02x}", b)).collect();
            parts.push(format!("{}*{}", one, times));
            at += period * times;
        } else {
            let _ = write!(plain, "{:02x}", bytes[at]);
            at += 1;
        }
    }
    if !plain.is_empty() {
        parts.push(plain);
    }
    parts.join(".")
}

/// The period of at most 16 bytes whose repetition covers the most, the shortest of these.
fn best_run(bytes: &[u8]) -> (usize, usize) {
    let mut best = (1, 1);
    for period in 1..=16.min(bytes.len()) {
        let mut times = 1;
        while bytes.len() >= period * (times + 1) && bytes[..period] == bytes[period * times..period * (times + 1)] {
            times += 1;
        }
        if times > 1 && period * times > best.0 * best.1 {
            best = (period, times);
        }
    }
    best
}

/// Reads what `hex` wrote.
pub fn unhex(text: &str) -> Option<Bytes> {
    if text == "-" {
        return Some(Vec::new());
    }
    let mut bytes = Vec::new();
    for part in text.split('.') {
        let (digits, times) = match part.split_once('*') {
            Some((digits, times)) => (digits, times.parse().ok()?),
            None => (part, 1),
        };
        if digits.len() % 2 != 0 {
            return None;
        }
        let one: Option<Bytes> =
            (0..digits.len() / 2).map(|i| u8::from_str_radix(digits.get(2 * i..2 * i + 2)?, 16).ok()).collect();
        bytes.extend(one?.repeat(times));
    }
    Some(bytes)
}
