//! Asks generated questions under older tables, before and after these are written anew; the first difference ends the run
//! with status 1.
//!
//! cases [COUNT [SEED]]   (a million cases of seed 1 if none is given)

use renew::cases::run;
use std::ffi::OsString;
use std::time::Instant;

const USAGE: &str = "usage: cases [COUNT [SEED]]";

/// The count and the seed; none where a word is no number or there are more than two.
fn numbers(words: &[OsString]) -> Option<(u64, u64)> {
    let number = |at: usize, if_none: u64| words.get(at).map_or(Some(if_none), |word| word.to_str()?.parse().ok());
    let (count, seed) = (number(0, 1_000_000)?, number(1, 1)?);
    (words.len() <= 2).then_some((count, seed))
}

fn main() {
    let words: Vec<OsString> = std::env::args_os().skip(1).collect();
    if words == ["--help"] {
        println!("{USAGE}");
        return;
    }
    let (count, seed) = numbers(&words).unwrap_or_else(|| {
        eprintln!("{USAGE}");
        std::process::exit(2)
    });
    let began = Instant::now();
    let shown = |cases: u64| eprintln!("cases: {cases} of {count}, {:.0} s", began.elapsed().as_secs_f64());
    match run(seed, 0, count, shown) {
        Ok(counts) => println!("cases: seed {seed}, {:.0} s, no difference: {counts:?}", began.elapsed().as_secs_f64()),
        Err(what) => {
            println!("cases: DIFFERENCE, {what}");
            std::process::exit(1)
        }
    }
}
