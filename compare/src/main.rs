//! Runs the proved judge and its yardsticks, the Rust's own methods inside their domain and the words everywhere, over
//! generated cases and compares every byte.
//!
//! compare [--profile P] [--seed S] [--count N] [--first I] [--threads T]
//!
//! P is a profile of reading/src/gen, `mixed` (those without an end), `sweeps` (each whole), `writing` (the test loads
//! of N start numbers), `undisturbed` (N pairs of tables) or `all` (the test loads, the pairs, the sweeps, then N mixed
//! cases; the default). The first difference ends the run with status 1; options that name no run end it with 2.

use compare::load::{self, CI_STARTS};
use compare::run::{sweeps, Batch, Run, CI_COUNT, CI_SEED};
use compare::threads;
use compare::undisturbed::{self, CI_PAIRS};
use compare::yardstick;
use reading::gen::Profile;
use std::ops::Range;
use std::sync::atomic::Ordering::Relaxed;
use std::time::{Duration, Instant};

fn stop(message: &str) -> ! {
    eprintln!("compare: {}", message);
    eprintln!("usage: compare [--profile P] [--seed S] [--count N] [--first I] [--threads T]");
    std::process::exit(2)
}

/// How often progress is shown.
const EVERY: Option<Duration> = Some(Duration::from_secs(10));

/// Where the indices end: one of them and a count of CI's together do not wrap.
const END: u64 = 1 << 63;

struct Options {
    profile: String,
    seed: u64,
    first: u64,
    count: Option<u64>,
    threads: usize,
}

impl Options {
    fn read() -> Options {
        let mut options = Options { profile: String::from("all"), seed: CI_SEED, first: 0, count: None, threads: 2 };
        let args: Vec<String> = std::env::args().skip(1).collect();
        for pair in args.chunks(2) {
            let [option, value] = pair else { stop("an option without a value") };
            let number = || value.parse::<u64>().unwrap_or_else(|_| stop(&format!("{} is no number", value)));
            match option.as_str() {
                "--profile" => options.profile = value.clone(),
                "--seed" => options.seed = number(),
                "--first" => options.first = number(),
                "--count" => options.count = Some(number()),
                "--threads" => options.threads = number().clamp(1, 64) as usize,
                _ => stop(&format!("unknown option {}", option)),
            }
        }
        options.stop_without_a_run();
        options
    }

    fn stop_without_a_run(&self) {
        if self.count == Some(0) {
            stop("with --count 0 nothing is compared");
        }
        let end = self.first.checked_add(self.count.unwrap_or(1));
        if !end.is_some_and(|end| end <= END) {
            stop(&format!("--first and --count go on behind the index {}, the last", END - 1));
        }
    }

    fn batches(&self) -> Vec<Batch> {
        let mixed = Batch { profile: None, first: self.first, count: self.count.unwrap_or(CI_COUNT) };
        match self.profile.as_str() {
            "all" => sweeps().into_iter().chain([mixed]).collect(),
            "mixed" => vec![mixed],
            "sweeps" => sweeps(),
            "writing" | "undisturbed" => Vec::new(),
            name => match Profile::by_name(name) {
                Some(profile) => {
                    let whole = profile.count().map(|n| n as u64).unwrap_or(CI_COUNT);
                    vec![Batch { profile: Some(profile), first: self.first, count: self.count.unwrap_or(whole) }]
                }
                None => stop(&format!("no profile {}", name)),
            },
        }
    }

    /// The indices of a profile that is no batch: in `all` as many as CI compares.
    fn indices(&self, profile: &str, of_ci: u64) -> Range<u64> {
        match self.profile.as_str() {
            "all" => 0..of_ci,
            name if name == profile => self.first..self.first + self.count.unwrap_or(of_ci),
            _ => 0..0,
        }
    }
}

fn difference(what: String) -> ! {
    println!("compare: DIFFERENCE\n{}", what);
    std::process::exit(1)
}

/// The loads of some start numbers.
fn loads(options: &Options) {
    let places = options.indices("writing", CI_STARTS);
    if places.is_empty() {
        return;
    }
    let (starts, began) = (places.end - places.start, Instant::now());
    let counts = load::compare(yardstick::ALL, options.seed, places, options.threads);
    let counts = counts.unwrap_or_else(|what| difference(what));
    println!(
        "compare: loads of {} start numbers (seed {}), {} calls, {} of them written, {:.1} s: no difference",
        starts,
        options.seed,
        counts.calls,
        counts.written,
        began.elapsed().as_secs_f64()
    );
}

/// Pairs of tables.
fn pairs(options: &Options) {
    let indices = options.indices("undisturbed", CI_PAIRS);
    if indices.is_empty() {
        return;
    }
    let began = Instant::now();
    let counts = undisturbed::compare(undisturbed::verdict, options.seed, indices, options.threads, EVERY);
    let counts = counts.unwrap_or_else(|what| difference(what));
    let said = threads::said(counts.pairs, "pairs of tables", began);
    println!("compare: {} (seed {}, {} threads), {} calls", said, options.seed, options.threads, counts.calls);
    counts.said().lines().for_each(|line| println!("compare: {}", line));
    println!("compare: no difference where the condition holds");
}

/// Batches of cases.
fn cases(options: &Options) {
    let batches = options.batches();
    if batches.is_empty() {
        return;
    }
    let run = Run::new(yardstick::ALL, options.seed, options.threads);
    let result = run.compare(&batches, EVERY);
    let Options { profile, seed, threads, .. } = options;
    println!("compare: {} (profile {}, seed {}, {} threads)", run.said(), profile, seed, threads);
    let numbers: Vec<String> = run.counts.numbers.iter().map(|n| n.load(Relaxed).to_string()).collect();
    println!("compare: numbers 0 to 13 were drawn {} times", numbers.join(", "));
    println!("compare: {} calls; cases compared: {}", run.counts.calls.load(Relaxed), run.compared());
    if !cfg!(feature = "rust") {
        println!("compare: the Rust's own methods are not built in");
    }
    match result {
        Ok(()) => println!("compare: no difference"),
        Err(what) => difference(what),
    }
}

fn main() {
    let options = Options::read();
    loads(&options);
    pairs(&options);
    cases(&options);
}
