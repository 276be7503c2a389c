//! Prints how often each number, operator, node kind, diagnostic and ruling occurs in the run that CI does.
//!
//! coverage [MIXED [SEED]]   (how many cases of the mixed profiles, beside every sweep; the seed)

use oracle::coverage::{ci_run, required, AT_LEAST, CI_MIXED, CI_SEED};

fn main() {
    let mut args = std::env::args().skip(1).map(|a| a.parse::<u64>().expect("a number"));
    let (mixed, seed) = (args.next().unwrap_or(CI_MIXED), args.next().unwrap_or(CI_SEED));
    let coverage = match ci_run(mixed, seed) {
        Ok(coverage) => coverage,
        Err(e) => {
            eprintln!("coverage: {}", e);
            std::process::exit(1);
        }
    };
    println!("{} cases: every sweep, and {} of the mixed profiles with seed {}", coverage.cases, mixed, seed);
    let mut items = required();
    let mut others: Vec<_> = coverage.counts.keys().filter(|item| !items.contains(item)).copied().collect();
    others.sort();
    items.extend(others);
    for item in items {
        println!("{:>9}  {}", coverage.of(item), item);
    }
    let faults = coverage.faults();
    if !faults.is_empty() {
        eprintln!("coverage: fewer than {} times: {}", AT_LEAST, faults.join(", "));
        std::process::exit(1);
    }
}
