//! Times: the minimum of many interleaved runs.

use crate::inputs::Input;
use aura_judge::raw;
use compare::case::{agrees, Given};
use compare::yardstick::{self, Sayings};
use oracle::{answer, question, table};
use std::hint::black_box;
use std::time::{Duration, Instant};

/// The lent buffer: room for 64 diagnostics.
pub const BUFFER: usize = 320;

/// A batch takes at least this long, so that reading the clock does not count.
const BATCH: Duration = Duration::from_micros(25);

/// How long one input is measured, and how many batches of each part are wanted. Where that many take ten times as long,
/// three will do.
#[derive(Clone, Copy)]
pub struct Effort {
    pub time: Duration,
    pub wanted: usize,
}

impl Effort {
    /// At least this one.
    pub fn or_more(self, other: Effort) -> Effort {
        Effort { time: self.time.max(other.time), wanted: self.wanted.max(other.wanted) }
    }

    /// That of so many inputs which are measured in turn.
    fn of_all(self, inputs: usize) -> Effort {
        Effort { time: self.time * inputs as u32, ..self }
    }

    fn goes_on(self, rounds: usize, took: Duration) -> bool {
        rounds < 3 || took < self.time || (rounds < self.wanted && took < 10 * self.time)
    }
}

/// Nanoseconds of each part for one input.
#[derive(Debug, Clone, Copy)]
pub struct Times {
    /// The judge on the table with an empty question: the table's check alone.
    pub check: f64,
    /// The judge on the table and the question.
    pub whole: f64,
    /// The Rust's maps from the table, without any check.
    pub fill: f64,
    /// The Rust's tree from the question.
    pub build: f64,
    /// The Rust's methods.
    pub run: f64,
}

impl Times {
    /// From the times of a case's parts.
    fn of(parts: &[f64]) -> Times {
        Times { check: parts[0], whole: parts[1], fill: parts[2], build: parts[3], run: parts[4] }
    }

    /// The judgement alone, as the difference.
    pub fn judgement(&self) -> f64 {
        (self.whole - self.check).max(0.0)
    }

    /// The Rust's filling and methods; the tree is left out.
    pub fn rust(&self) -> f64 {
        self.fill + self.run
    }

    pub fn ratio(&self) -> f64 {
        self.whole / self.rust()
    }
}

/// Something timed: runs it so many times, each time on the next of the tables (or start numbers) that take turns, and
/// says how long that took, without what is thrown away afterwards.
pub struct Part<'a> {
    tables: usize,
    run: Box<dyn FnMut(usize) -> Duration + 'a>,
}

/// Times what gives values for the table at a place; they are dropped outside the time.
fn giving<'a, T>(tables: usize, mut f: impl FnMut(usize) -> T + 'a) -> Part<'a> {
    let mut places = (0..tables).cycle();
    let run = Box::new(move |batch| {
        let mut kept = Vec::with_capacity(batch);
        let began = Instant::now();
        for place in places.by_ref().take(batch) {
            kept.push(f(place));
        }
        let took = began.elapsed();
        black_box(&kept);
        took
    });
    Part { tables, run }
}

/// Times the judge. The buffers hold what the call before left; the judge clears them itself, inside the time.
pub fn judging<'a>(tables: &'a [&'a [u8]], question: &'a [u8], buffer: usize) -> Part<'a> {
    let mut diagnostics = vec![0; buffer];
    let mut answer = [0; raw::ANSWER_SIZE];
    let mut turn = tables.iter().cycle();
    let run = Box::new(move |batch| {
        let began = Instant::now();
        for table in turn.by_ref().take(batch) {
            black_box(raw::judge(black_box(table), black_box(question), &mut diagnostics, &mut answer));
        }
        began.elapsed()
    });
    Part { tables: tables.len(), run }
}

/// Times a writer of the test load, each time with the next start number.
#[cfg(feature = "load")]
pub fn writing<'a>(starts: &'a [u32], write: impl Fn(u32, &mut [u8]) + 'a) -> Part<'a> {
    let mut out = [0; raw::LOAD_LONGEST];
    let mut turn = starts.iter().cycle();
    let run = Box::new(move |batch| {
        let began = Instant::now();
        for start in turn.by_ref().take(batch) {
            write(black_box(*start), black_box(&mut out));
        }
        began.elapsed()
    });
    Part { tables: starts.len(), run }
}

impl Part<'_> {
    /// A power of two.
    fn batch_size(&mut self) -> usize {
        let mut batch = 1;
        while batch < 4096 && (self.run)(batch) < BATCH {
            batch *= 2;
        }
        batch
    }

    /// The time of one run, from as many batches as have each table equally often.
    fn each(&mut self, batch: usize) -> f64 {
        let batches = (self.tables / batch).max(1);
        let runs = batches * batch;
        assert_eq!(runs % self.tables, 0, "the number of tables is no power of two");
        let took: Duration = (0..batches).map(|_| (self.run)(batch)).sum();
        took.as_nanos() as f64 / runs as f64
    }
}

/// The least time of each part, the parts run in turn.
pub fn least(parts: &mut [Part], effort: Effort) -> Vec<f64> {
    let batches: Vec<usize> = parts.iter_mut().map(Part::batch_size).collect();
    let mut times = vec![f64::INFINITY; parts.len()];
    let began = Instant::now();
    let mut rounds = 0;
    while effort.goes_on(rounds, began.elapsed()) {
        for ((part, batch), time) in parts.iter_mut().zip(&batches).zip(&mut times) {
            *time = time.min(part.each(*batch));
        }
        rounds += 1;
    }
    times
}

/// The tables as the library reads them.
fn handed(inputs: &[Input]) -> Vec<&[u8]> {
    inputs.iter().map(|input| input.handed.as_slice()).collect()
}

/// One question and the tables that take turns under it.
pub struct Case<'a> {
    tables: Vec<&'a [u8]>,
    handed: Vec<&'a [u8]>,
    asked: &'a [u8],
    filled: Vec<table::Filled>,
    names: Vec<Vec<String>>,
    built: Vec<question::Asked>,
}

impl<'a> Case<'a> {
    /// The inputs have the same question.
    pub fn new(inputs: &'a [Input]) -> Case<'a> {
        inputs.iter().for_each(same_answer);
        let asked = inputs[0].question.as_slice();
        let tables: Vec<&[u8]> = inputs.iter().map(|input| input.table.as_slice()).collect();
        let filled: Vec<_> = tables.iter().map(|bytes| table::fill(bytes)).collect();
        let names: Vec<_> = filled.iter().map(|filled| filled.names.clone()).collect();
        let built = names.iter().map(|names| question::build(asked, names)).collect();
        Case { tables, handed: handed(inputs), asked, filled, names, built }
    }

    fn parts(&mut self) -> [Part<'_>; 5] {
        let Case { tables, handed, asked, filled, names, built } = self;
        let (tables, handed, asked, count) = (&*tables, &*handed, *asked, tables.len());
        [
            judging(handed, &[], BUFFER),
            judging(handed, asked, BUFFER),
            giving(count, |place| table::fill(black_box(tables[place]))),
            giving(count, |place| question::build(black_box(asked), &names[place])),
            giving(count, |place| answer::run(&mut filled[place], black_box(&built[place]), false)),
        ]
    }
}

/// All parts of each case, which run in turn as well.
pub fn parts(mut cases: Vec<Case>, effort: Effort) -> Vec<Times> {
    let effort = effort.of_all(cases.len());
    let mut parts: Vec<Part> = cases.iter_mut().flat_map(Case::parts).collect();
    least(&mut parts, effort).chunks_exact(5).map(Times::of).collect()
}

/// The judge's own times alone, `check` and `whole`, of tables that take turns under one question. The cases take turns as
/// well.
pub fn judged(cases: &[Vec<Input>], effort: Effort) -> Vec<(f64, f64)> {
    cases.iter().flatten().for_each(same_answer);
    let tables: Vec<_> = cases.iter().map(|inputs| handed(inputs)).collect();
    let asked = cases.iter().map(|inputs| inputs[0].question.as_slice());
    let parts = tables.iter().zip(asked).flat_map(|(tables, asked)| [&[], asked].map(|q| judging(tables, q, BUFFER)));
    let mut parts: Vec<Part> = parts.collect();
    least(&mut parts, effort.of_all(cases.len())).chunks_exact(2).map(|t| (t[0], t[1])).collect()
}

/// All parts of one question under tables that take turns, and the judge's own times alone, `check` and `whole`, of others,
/// which run in turn with it.
pub fn beside(inputs: &[Input], others: &[Vec<Input>], effort: Effort) -> (Times, Vec<(f64, f64)>) {
    others.iter().flatten().for_each(same_answer);
    let tables: Vec<_> = others.iter().map(|inputs| handed(inputs)).collect();
    let mut case = Case::new(inputs);
    let mut parts: Vec<Part> = case.parts().into();
    for (tables, inputs) in tables.iter().zip(others) {
        parts.extend([&[], inputs[0].question.as_slice()].map(|asked| judging(tables, asked, BUFFER)));
    }
    let times = least(&mut parts, effort.of_all(1 + others.len()));
    let (first, rest) = times.split_at(5);
    (Times::of(first), rest.chunks_exact(2).map(|t| (t[0], t[1])).collect())
}

/// Stops where the judge and a yardstick differ on an input, where it is refused, or where the Rust has no answer although it
/// is a yardstick. The yardsticks read tables of today's form, whichever form the library has.
fn same_answer(input: &Input) {
    let said = format!("{}, {} bytes, {}", input.make.words(), input.table.len(), input.asked);
    let sayings = Sayings::of(yardstick::ALL, &input.table, &input.question);
    let (mut buffer, mut answer, mut expected) = ([7; BUFFER], [7; raw::ANSWER_SIZE], [7; BUFFER]);
    let number = raw::judge(&input.handed, &input.question, &mut buffer, &mut answer);
    let given = Given { number, answer: &answer, buffer: &buffer };
    agrees(&sayings, &given, &mut expected).unwrap_or_else(|what| panic!("{said}: {what}"));
    let [rust, words] = [0, 1].map(|place| sayings.speaks(place));
    assert!(number == 0 && words && (rust || !input.rust), "{said}");
}

#[cfg(test)]
mod tests {
    use super::*;

    /// With 8 tables, of which one takes 8 milliseconds and the others nothing, each takes 1 on average.
    #[test]
    fn a_time_is_that_of_one_table() {
        for batch in [1, 4, 8, 32] {
            let mut places = (0..8).cycle();
            let run = Box::new(move |batch| {
                places.by_ref().take(batch).map(|place| Duration::from_millis(if place == 3 { 8 } else { 0 })).sum()
            });
            let mut part = Part { tables: 8, run };
            (part.run)(5);
            assert_eq!(part.each(batch), 1_000_000.0);
        }
    }
}
