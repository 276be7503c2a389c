//! Document 02, order 7, on generated pairs of tables: "with equal buffers the whole answer and every diagnostic are
//! equal in both". Where the condition holds the proved judge gives under both tables the same number and the same
//! bytes of the answer and of the buffer, and the second reading says the same of both. Where it fails it is counted
//! how often the answers differ.

use crate::case::{limits_of, read, shown, Lent};
use crate::threads;
use reading::gen::undisturbed::{pair, Pair};
use reading::hex::hex;
use reading::words::said;
use reading::words::undisturbed::{NotAdded, ReadingCall, Stand, Tables};
use std::collections::BTreeMap;
use std::fmt::Write;
use std::ops::Range;
use std::sync::atomic::{AtomicU64, Ordering::Relaxed};
use std::time::{Duration, Instant};

/// How many pairs CI compares.
pub const CI_PAIRS: u64 = 30_000;

/// What a condition says of a pair: the calls that read the list where it holds, else why it fails.
pub enum Verdict {
    Holds(Vec<ReadingCall>),
    Fails(&'static str),
}

/// The order's condition, as the second reading has it.
pub fn verdict(pair: &Pair) -> Verdict {
    let tables = match Tables::of(&pair.old, &pair.new) {
        Ok(tables) => tables,
        Err(why) => return Verdict::Fails(not_added(why)),
    };
    // A refused question reads nothing.
    let calls = tables.reading_calls(&pair.question).unwrap_or_default();
    match calls.iter().find(|call| !call.stand.holds()) {
        Some(call) => Verdict::Fails(stand(call.stand)),
        None => Verdict::Holds(calls),
    }
}

fn not_added(why: NotAdded) -> &'static str {
    match why {
        NotAdded::OldRefused(_) => "the old table is refused",
        NotAdded::NewRefused(_) => "the new table is refused",
        NotAdded::NotOneMore => "not one record more",
        NotAdded::NotFunction => "no function",
        NotAdded::NotLast => "not last of its list",
        NotAdded::EmptyList => "an empty list",
        NotAdded::NotMixed => "no builtin beside builtins alone",
    }
}

fn stand(stand: Stand) -> &'static str {
    match stand {
        Stand::Dropped => "dropped as builtin",
        Stand::Unfit => "unfit in number",
        Stand::StaysWithOld => "without a match or with a lower score",
        Stand::Unknown(_) => "an unknown name",
        Stand::NoMatch => "no old match",
        Stand::NotLess { new, best } if new == best => "an equal score",
        Stand::NotLess { .. } => "a higher score",
    }
}

/// How often the condition failed for a reason, and how often the answers were others then.
#[derive(Debug, Clone, Copy, Default, PartialEq, Eq)]
pub struct Failed {
    pub pairs: u64,
    pub differ: u64,
}

#[derive(Debug, Clone, Default, PartialEq, Eq)]
pub struct Counts {
    pub pairs: u64,
    /// How often the proved judge was called.
    pub calls: u64,
    /// In how many pairs the condition holds.
    pub holds: u64,
    /// In how many of these a visited call reads the list.
    pub reading: u64,
    /// These calls by how they stand to the new function.
    pub stands: BTreeMap<&'static str, u64>,
    /// Where the condition fails, by what fails first.
    pub fails: BTreeMap<&'static str, Failed>,
}

impl Counts {
    fn count(&mut self, verdict: &Verdict, differs: bool) {
        self.pairs += 1;
        match verdict {
            Verdict::Holds(calls) => {
                self.holds += 1;
                self.reading += !calls.is_empty() as u64;
                calls.iter().for_each(|call| *self.stands.entry(stand(call.stand)).or_default() += 1);
            }
            Verdict::Fails(why) => {
                let failed = self.fails.entry(why).or_default();
                failed.pairs += 1;
                failed.differ += differs as u64;
            }
        }
    }

    fn add(&mut self, other: Counts) {
        self.pairs += other.pairs;
        self.calls += other.calls;
        self.holds += other.holds;
        self.reading += other.reading;
        other.stands.into_iter().for_each(|(stand, count)| *self.stands.entry(stand).or_default() += count);
        for (why, failed) in other.fails {
            let sum = self.fails.entry(why).or_default();
            sum.pairs += failed.pairs;
            sum.differ += failed.differ;
        }
    }

    /// The counts in lines.
    pub fn said(&self) -> String {
        let stands: Vec<String> = self.stands.iter().map(|(stand, count)| format!("{} {}", count, stand)).collect();
        let reading = format!("in {} of them a visited call reads the list", self.reading);
        let mut lines = format!("the condition holds in {}, {}", self.holds, reading);
        let _ = write!(lines, "\nthe new function at these calls: {}", stands.join(", "));
        for (why, Failed { pairs, differ }) in &self.fails {
            let _ = write!(lines, "\nit fails in {} ({}), {} of them are answered otherwise", pairs, why, differ);
        }
        lines
    }
}

/// Room for the calls of a thread, and its counts.
#[derive(Default)]
struct Sides {
    old: Lent,
    new: Lent,
    counts: Counts,
}

impl Sides {
    /// What the proved judge gives otherwise under the second table than under the first, with a buffer of this length.
    fn given_otherwise(&mut self, pair: &Pair, length: usize) -> Result<Option<String>, String> {
        let old = self.old.call(&pair.old, &pair.question, length)?;
        let new = self.new.call(&pair.new, &pair.question, length)?;
        self.counts.calls += 2;
        if old == new {
            return Ok(None);
        }
        let at = old.buffer.iter().zip(new.buffer).position(|(old, new)| old != new);
        let at = at.map_or(String::from("none"), |at| at.to_string());
        let each = [old, new].map(|given| format!("{}, {}", given.number, shown(&read(given.answer).0, given.buffer)));
        let [old, new] = each;
        let head = format!("the proved judge, buffer of {} bytes, the first of them that differs: {}", length, at);
        Ok(Some(format!("{}\nunder the old table {}\nunder the new table {}", head, old, new)))
    }

    /// What differs; none where every byte is the same at each buffer length.
    fn differs(&mut self, pair: &Pair) -> Result<Option<String>, String> {
        let (old, new) = (said(&pair.old, &pair.question), said(&pair.new, &pair.question));
        let lengths = [pair.buffer, 0].into_iter().chain(limits_of(&old));
        let mut given = None;
        for length in lengths {
            given = self.given_otherwise(pair, length)?;
            if given.is_some() {
                break;
            }
        }
        if given.is_some() != (old != new) {
            let given = given.unwrap_or(String::from("the proved judge gives the same"));
            return Err(format!("{}\nthe words under the old table {:?}\nunder the new table {:?}", given, old, new));
        }
        Ok(given)
    }

    fn one(&mut self, condition: &impl Fn(&Pair) -> Verdict, pair: &Pair) -> Result<(), String> {
        let differs = self.differs(pair)?;
        let verdict = condition(pair);
        self.counts.count(&verdict, differs.is_some());
        match (verdict, differs) {
            (Verdict::Holds(_), Some(what)) => Err(format!("the condition holds\n{}", what)),
            _ => Ok(()),
        }
    }
}

fn described(pair: &Pair, what: &str) -> String {
    let Pair { old, new, question, .. } = pair;
    format!("old table {}\nnew table {}\nquestion {}\n{}", hex(old), hex(new), hex(question), what)
}

/// Compares the pairs of these indices; the error is the first difference of a thread where the condition holds.
/// `every` is how often progress is shown.
pub fn compare(
    condition: impl Fn(&Pair) -> Verdict + Sync,
    seed: u64,
    indices: Range<u64>,
    threads: usize,
    every: Option<Duration>,
) -> Result<Counts, String> {
    let (began, total, done) = (Instant::now(), indices.end - indices.start, AtomicU64::new(0));
    let one = |sides: &mut Sides, index| {
        let compared = threads::caught("the generator", || Ok(pair(seed, index))).and_then(|pair| {
            let compared = threads::caught("the words", || sides.one(&condition, &pair));
            compared.map_err(|what| described(&pair, &what))
        });
        done.fetch_add(1, Relaxed);
        compared.map_err(|what| format!("undisturbed seed {} index {}\n{}", seed, index, what))
    };
    let shown = || {
        eprintln!("compare: {} (undisturbed of {})", threads::said(done.load(Relaxed), "pairs", began), total);
    };
    let each = threads::each(threads, indices, Sides::default, one, every, shown)?;
    Ok(each.into_iter().fold(Counts::default(), |mut sum, sides| {
        sum.add(sides.counts);
        sum
    }))
}
