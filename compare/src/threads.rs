//! Indices on some threads, with progress; the first error ends them all.

use std::ops::Range;
use std::panic::{catch_unwind, AssertUnwindSafe};
use std::sync::atomic::{AtomicBool, AtomicU64, Ordering::Relaxed};
use std::sync::Mutex;
use std::time::{Duration, Instant};

/// How many indices a thread takes at a time.
const CHUNK: u64 = 64;

/// What the threads of a run share.
struct Shared {
    next: AtomicU64,
    stop: AtomicBool,
    error: Mutex<Option<String>>,
}

impl Shared {
    fn work<S>(&self, mut state: S, end: u64, one: &impl Fn(&mut S, u64) -> Result<(), String>) -> S {
        loop {
            let from = self.next.fetch_add(CHUNK, Relaxed);
            if from >= end || self.stop.load(Relaxed) {
                break;
            }
            if let Err(what) = (from..end.min(from + CHUNK)).try_for_each(|index| one(&mut state, index)) {
                self.stop.store(true, Relaxed);
                self.error.lock().expect("no thread panics with the lock").get_or_insert(what);
            }
        }
        state
    }
}

/// Gives each index to one of some threads, each with a state of its own, and answers the states; the error is the
/// first of one. `every` is how often `shown` is called meanwhile.
pub fn each<S: Send>(
    threads: usize,
    indices: Range<u64>,
    new: impl Fn() -> S + Sync,
    one: impl Fn(&mut S, u64) -> Result<(), String> + Sync,
    every: Option<Duration>,
    shown: impl Fn(),
) -> Result<Vec<S>, String> {
    let (next, stop) = (AtomicU64::new(indices.start), AtomicBool::new(false));
    let shared = Shared { next, stop, error: Mutex::new(None) };
    let states = std::thread::scope(|scope| {
        let work = || shared.work(new(), indices.end, &one);
        let workers: Vec<_> = (0..threads).map(|_| scope.spawn(work)).collect();
        let mut last = Instant::now();
        while workers.iter().any(|worker| !worker.is_finished()) {
            std::thread::sleep(Duration::from_millis(20));
            if every.is_some_and(|every| last.elapsed() >= every) {
                last = Instant::now();
                shown();
            }
        }
        workers.into_iter().map(|worker| worker.join().expect("no thread panics")).collect()
    });
    shared.error.into_inner().expect("no thread panics with the lock").map_or(Ok(states), Err)
}

/// What a part of the work gives; a panic is an error, to which the caller adds the index.
pub fn caught<T>(part: &str, work: impl FnOnce() -> Result<T, String>) -> Result<T, String> {
    catch_unwind(AssertUnwindSafe(work)).unwrap_or_else(|_| Err(format!("{} stopped", part)))
}

/// How far a run is.
pub fn said(count: u64, of: &str, began: Instant) -> String {
    let seconds = began.elapsed().as_secs_f64();
    format!("{} {}, {:.0} a second, {:.0} s", count, of, count as f64 / seconds.max(0.001), seconds)
}
