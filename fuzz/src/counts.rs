//! What a run did, shown as it goes and at its end.

use std::sync::atomic::{AtomicU64, Ordering::Relaxed};
use std::sync::OnceLock;
use std::time::Instant;

static INPUTS: AtomicU64 = AtomicU64::new(0);
/// How many inputs were compared with the Rust too.
static RUST: AtomicU64 = AtomicU64::new(0);
/// How many compared calls drew each number.
static NUMBERS: [AtomicU64; 14] = [const { AtomicU64::new(0) }; 14];
/// How many test loads were compared.
static LOADS: AtomicU64 = AtomicU64::new(0);
static BEGAN: OnceLock<Instant> = OnceLock::new();
static SHOWN: AtomicU64 = AtomicU64::new(0);

/// Seconds between two lines of progress.
const EVERY: u64 = 30;

/// A call whose answer agrees.
pub fn call(number: u8) {
    NUMBERS[number as usize].fetch_add(1, Relaxed);
}

/// A test load that agrees.
pub fn load() {
    LOADS.fetch_add(1, Relaxed);
}

/// An input whose calls are done.
pub fn input(with_rust: bool) {
    let inputs = INPUTS.fetch_add(1, Relaxed) + 1;
    RUST.fetch_add(with_rust as u64, Relaxed);
    if inputs % 256 != 1 {
        return;
    }
    let seconds = BEGAN.get_or_init(Instant::now).elapsed().as_secs();
    if seconds >= SHOWN.load(Relaxed) + EVERY {
        SHOWN.store(seconds, Relaxed);
        eprintln!(
            "fuzz: {} s, {} inputs, {} a second: {} calls, {} inputs compared with the Rust, all with the words",
            seconds,
            inputs,
            inputs / seconds,
            calls(),
            RUST.load(Relaxed)
        );
    }
}

fn calls() -> u64 {
    NUMBERS.iter().map(|n| n.load(Relaxed)).sum()
}

/// `fuzz/run` adds these lines up.
pub extern "C" fn print_totals() {
    let numbers: Vec<String> = NUMBERS.iter().chain([&LOADS]).map(|n| n.load(Relaxed).to_string()).collect();
    eprintln!("fuzz: total {} {} {} {}", INPUTS.load(Relaxed), calls(), RUST.load(Relaxed), numbers.join(" "));
}
