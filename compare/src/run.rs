//! Many cases on some threads, with progress.

use crate::case::Space;
use crate::threads;
use reading::gen::{case, mixed, Case, Profile, PROFILES};
use reading::Yardstick;
use std::sync::atomic::{AtomicU64, Ordering::Relaxed};
use std::time::{Duration, Instant};

/// Cases of one kind, from an index on.
#[derive(Debug, Clone, Copy, PartialEq, Eq)]
pub struct Batch {
    /// None: the profiles without an end, mixed.
    pub profile: Option<Profile>,
    pub first: u64,
    pub count: u64,
}

impl Batch {
    pub fn name(&self) -> &'static str {
        self.profile.map_or("mixed", Profile::name)
    }

    fn case(&self, seed: u64, index: u64) -> Case {
        match self.profile {
            Some(profile) => case(profile, seed, index),
            None => mixed(seed, index),
        }
    }
}

/// Every sweep, whole.
pub fn sweeps() -> Vec<Batch> {
    let whole = |(profile, _): &(Profile, &str)| {
        profile.count().map(|n| Batch { profile: Some(*profile), first: 0, count: n as u64 })
    };
    PROFILES.iter().filter_map(whole).collect()
}

/// How many mixed cases CI runs beside the sweeps.
pub const CI_COUNT: u64 = 325_000;
pub const CI_SEED: u64 = 1;

/// Every fourth case is asked at the buffer lengths around number 12 too.
const LIMITS_EVERY: u64 = 4;

#[derive(Debug, Default)]
pub struct Counts {
    pub cases: AtomicU64,
    pub calls: AtomicU64,
    /// Per yardstick, how many cases were compared with it.
    pub with: Vec<AtomicU64>,
    /// How many cases drew each number.
    pub numbers: [AtomicU64; 14],
}

pub struct Run<'y> {
    pub yardsticks: &'y [Yardstick],
    pub seed: u64,
    pub threads: usize,
    pub counts: Counts,
    began: Instant,
}

impl Run<'_> {
    pub fn new(yardsticks: &[Yardstick], seed: u64, threads: usize) -> Run<'_> {
        let with = yardsticks.iter().map(|_| AtomicU64::new(0)).collect();
        Run { yardsticks, seed, threads, counts: Counts { with, ..Counts::default() }, began: Instant::now() }
    }

    /// Compares the cases of some batches; the error is the first difference. `every` is how often progress is shown.
    pub fn compare(&self, batches: &[Batch], every: Option<Duration>) -> Result<(), String> {
        let total = batches.iter().map(|b| b.count).sum();
        batches.iter().try_for_each(|batch| self.batch(batch, total, every))
    }

    fn batch(&self, batch: &Batch, total: u64, every: Option<Duration>) -> Result<(), String> {
        let one = |space: &mut Space, index| {
            let head = || format!("{} seed {} index {}", batch.name(), self.seed, index);
            self.one(batch, index, space).map_err(|what| format!("{}\n{}", head(), what))
        };
        let shown = || eprintln!("compare: {} ({} of {})", self.said(), batch.name(), total);
        let indices = batch.first..batch.first + batch.count;
        threads::each(self.threads, indices, Space::default, one, every, shown).map(drop)
    }

    /// How far the run is.
    pub fn said(&self) -> String {
        threads::said(self.counts.cases.load(Relaxed), "cases", self.began)
    }

    fn one(&self, batch: &Batch, index: u64, space: &mut Space) -> Result<(), String> {
        let case = threads::caught("the generator", || Ok(batch.case(self.seed, index)))?;
        let around = index % LIMITS_EVERY == 0;
        let outcome = threads::caught("a yardstick", || Ok(space.compare(self.yardsticks, &case, around)))
            .map_err(|what| format!("{} on {:?}", what, case))??;
        self.counts.cases.fetch_add(1, Relaxed);
        self.counts.calls.fetch_add(outcome.calls, Relaxed);
        self.counts.numbers[outcome.number as usize].fetch_add(1, Relaxed);
        for (count, speaks) in self.counts.with.iter().zip(outcome.speaks) {
            count.fetch_add(speaks as u64, Relaxed);
        }
        Ok(())
    }

    /// How many cases were compared with each yardstick.
    pub fn compared(&self) -> String {
        let one =
            |(yardstick, count): (&Yardstick, &AtomicU64)| format!("{} with {}", count.load(Relaxed), yardstick.name);
        let each: Vec<String> = self.yardsticks.iter().zip(&self.counts.with).map(one).collect();
        each.join(", ")
    }
}
