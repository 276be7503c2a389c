//! The judge's speed beside the Rust's.
//!
//!     cargo run --release               measures and prints the page
//!     cargo run --release -- --write    also writes docs/SPEED.md and docs/speed.svg
//!     cargo run --release -- --quick    a short run, to see that it works
//!     cargo run --release -- --lines    prints a line for each row instead of the page, for tools/turns.py
//!     cargo run --release -- --classes  the same, of the rows of classes alone
//!     cargo run --release -- --before PROGRAM
//!                                       the page has, beside its rows of classes, those of this program of an older build
//!
//! With --no-default-features it links a library from before document 02's orders, with --features load besides one from
//! before order 2, with --features load,subclass one from before order 5, and with --features load,subclass,large-array one
//! from before order 6, which is handed tables of the older form. What the library lacks is then not measured.

mod arrays;
mod classes;
mod collide;
mod inputs;
mod measure;
mod overloads;
mod plot;
mod report;
mod stack;
#[cfg_attr(not(feature = "load"), allow(dead_code))]
mod writing;

use arrays::{Place, Width, PLACES, WIDTHS};
use classes::Family;
use inputs::{Input, Make, CHOSEN, DOUBLED, MAKES};
use measure::{judging, least, parts, Case, Effort, Times, BUFFER};
use overloads::Call;
use plot::{Panel, Series};
use report::{ArrayRow, CallRow, ClassRow, Growth, NodeGrowth, RefusedRow, Report, Row};
use std::collections::HashMap;
use std::process::Command;
use std::time::Duration;
use writing::Writing;
#[cfg(feature = "load")]
use {
    aura_judge::raw::{self, LOAD_LONGEST},
    std::hint::black_box,
};

const DOCS: &str = concat!(env!("CARGO_MANIFEST_DIR"), "/../docs");
const COMMAND: &str = "(cd crates/aura_c && rt lib) && cd bench && cargo run --release -- --write --before PROGRAM";

/// The times of one input.
fn times(input: &Input, effort: Effort) -> Times {
    parts(vec![Case::new(std::slice::from_ref(input))], effort)[0]
}

fn rows(effort: Effort) -> Vec<Row> {
    let row = |input: Input| {
        let times = times(&input, effort);
        Row { make: input.make, bytes: input.table.len(), asked: input.asked, times }
    };
    inputs::all().into_iter().map(row).collect()
}

fn growth(effort: Effort) -> Vec<Growth> {
    let of = |make: Make| {
        let turns = DOUBLED.map(|size| inputs::turn(make, size));
        let times = parts(turns.iter().map(|inputs| Case::new(inputs)).collect(), effort);
        let lengths = turns.iter().map(|inputs| inputs[0].table.len());
        Growth { make, steps: lengths.zip(times).collect() }
    };
    MAKES.into_iter().chain(CHOSEN).map(of).collect()
}

/// The rows of classes by size: the judge alone. `earlier` has the times of an older build.
fn classes(effort: Effort, earlier: &HashMap<String, f64>) -> Vec<ClassRow> {
    let of = |family: Family| {
        let turns = DOUBLED.map(|size| family.turn(size));
        let times = measure::judged(&turns, effort);
        let row = |(inputs, (check, whole)): (&Vec<Input>, (f64, f64))| {
            let table = &inputs[0].table;
            let (classes, functions) = inputs::counts(table);
            let row = ClassRow { family, bytes: table.len(), classes, functions, check, whole, before: None };
            ClassRow { before: earlier.get(&row.name()).copied(), ..row }
        };
        turns.iter().zip(times).map(row).collect::<Vec<_>>()
    };
    Family::all().flat_map(of).collect()
}

/// What the program of an older build takes for its rows of classes.
fn earlier(program: &str, quick: bool) -> HashMap<String, f64> {
    let mut command = Command::new(program);
    command.arg("--classes").args(quick.then_some("--quick"));
    let output = command.output().unwrap_or_else(|error| panic!("{program}: {error}"));
    let said = String::from_utf8_lossy(&output.stdout);
    assert!(output.status.success(), "{program}: {}", String::from_utf8_lossy(&output.stderr));
    report::read_lines(&said).unwrap_or_else(|line| panic!("{program}: not a row: {line:?}"))
}

/// Calls with several arguments over one list. A run takes milliseconds, so that a short measurement would have three.
fn calls(effort: Effort) -> Vec<CallRow> {
    let effort = effort.or_more(Effort { time: Duration::from_millis(100), wanted: 20 });
    let row = |call: &Call| {
        let input = call.input();
        let (_, overloads) = inputs::counts(&input.table);
        CallRow { call: *call, bytes: input.table.len(), overloads, times: times(&input, effort) }
    };
    overloads::CALLS.iter().map(row).collect()
}

/// The widths of an Array's size that the library has; the first is the one that the Rust is asked with.
fn widths() -> &'static [Width] {
    match cfg!(feature = "large-array") {
        true => &WIDTHS,
        false => &WIDTHS[..1],
    }
}

/// Types of Arrays by the width of their size; the widths run in turn. Calls over a list take milliseconds.
fn arrays(effort: Effort) -> Vec<ArrayRow> {
    let effort = effort.or_more(Effort { time: Duration::from_millis(100), wanted: 20 });
    let of = |place: Place| {
        let turns: Vec<_> = widths().iter().map(|width| arrays::turn(place, *width)).collect();
        let (first, others) = measure::beside(&turns[0], &turns[1..], effort);
        let four = place.time(first.check, first.whole);
        let mut rows = vec![ArrayRow::new(&turns[0][0], place, four, four, Some(place.rust(&first)))];
        for (turn, (check, whole)) in turns[1..].iter().zip(others) {
            rows.push(ArrayRow::new(&turn[0], place, place.time(check, whole), four, None));
        }
        rows
    };
    PLACES.into_iter().flat_map(of).collect()
}

fn nodes(effort: Effort) -> Vec<NodeGrowth> {
    let of = |make: Make, size: usize| {
        let step = |count: usize| {
            let (table, question) = (inputs::table(make, size), inputs::nodes(count, make));
            (count, times(&Input::new(make, format!("{count} nodes"), table, question), effort))
        };
        let bytes = if size == 0 { "".to_string() } else { format!(", {size} bytes") };
        let name = format!("{}{bytes}", make.words());
        NodeGrowth { name, steps: [1, 2, 4, 8, 16, 32, 64].map(step).to_vec() }
    };
    vec![
        of(Make::Nothing, 0),
        of(Make::Fields, 2048),
        of(Make::Many, 2048),
        of(Make::Few, 2048),
        of(Make::Many, 60_000),
        of(Make::Few, 60_000),
    ]
}

fn refused(effort: Effort) -> Vec<RefusedRow> {
    let row = |input: inputs::Refused| {
        let mut buffer = [0; BUFFER];
        let found = aura_judge::judge(&input.table, &input.question, &mut buffer).number();
        assert_eq!(found, input.number, "{}", input.what);
        let time = least(&mut [judging(&[&input.table], &input.question, BUFFER)], effort)[0];
        RefusedRow { what: input.what, number: input.number, bytes: input.bytes(), time }
    };
    inputs::refused().into_iter().map(row).collect()
}

fn buffers(effort: Effort) -> Vec<(usize, f64)> {
    let question = inputs::nodes(1, Make::Nothing);
    let time = |bytes: usize| (bytes, least(&mut [judging(&[&[]], &question, bytes)], effort)[0]);
    [0, BUFFER, 4096, 65_535].map(time).to_vec()
}

/// The library's writer of the test load beside the plain one, which have to write the same.
#[cfg(feature = "load")]
fn writing(effort: Effort) -> Vec<Writing> {
    let starts = writing::starts();
    let row = |nodes: usize| {
        for start in &starts {
            let (mut out, mut right) = ([7; LOAD_LONGEST], [0; LOAD_LONGEST]);
            let written = aura_judge::load(*start, nodes, &mut out).map(<[u8]>::len);
            assert_eq!(written, Ok(writing::plain(*start, nodes, &mut right)), "{start} {nodes}");
            assert_eq!(out, right, "{start} {nodes}");
        }
        let library = measure::writing(&starts, |start, out| {
            let mut len = 0;
            raw::load(start, nodes, out, &mut len);
            black_box(len);
        });
        let plain = measure::writing(&starts, |start, out| {
            black_box(writing::plain(start, nodes, out));
        });
        let times = least(&mut [library, plain], effort);
        Writing { nodes, library: times[0], plain: times[1] }
    };
    writing::COUNTS.map(row).into()
}

#[cfg(not(feature = "load"))]
fn writing(_: Effort) -> Vec<Writing> {
    Vec::new()
}

/// The machine and the compiler, as far as they can be told.
fn machine() -> String {
    let read = |path: &str| std::fs::read_to_string(path).unwrap_or_default();
    let info = read("/proc/cpuinfo");
    let field = |key: &str| {
        let line = info.lines().find(|line| line.starts_with(key));
        line.and_then(|line| line.split(':').nth(1)).map_or("unknown", str::trim).to_string()
    };
    let cores = std::thread::available_parallelism().map_or(0, usize::from);
    let rustc = std::process::Command::new("rustc").arg("--version").output();
    let rustc = rustc.map_or("rustc unknown".to_string(), |o| String::from_utf8_lossy(&o.stdout).trim().to_string());
    let load = read("/proc/loadavg").split(' ').next().unwrap_or("").to_string();
    format!(
        "Machine: {} ({} MHz, cache {}, {} processors; load average {} at the start), {}; {}.",
        field("model name"),
        field("cpu MHz").split('.').next().unwrap_or("unknown"),
        field("cache size"),
        cores,
        if load.is_empty() { "unknown" } else { &load },
        std::env::consts::OS,
        rustc
    )
}

fn panels(report: &Report) -> [Panel; 2] {
    let points = |steps: &[(usize, Times)]| {
        steps.iter().map(|(x, t)| (*x as f64, t.whole / 1000.0, t.rust() / 1000.0)).collect()
    };
    let tables = report.growth.iter().map(|g| Series { name: g.make.words().to_string(), points: points(&g.steps) });
    let nodes = report.nodes.iter().map(|g| Series { name: g.name.clone(), points: points(&g.steps) });
    [
        Panel { title: "By table size, 8 nodes", axis: "bytes of table", series: tables.collect() },
        Panel { title: "By nodes", axis: "nodes", series: nodes.collect() },
    ]
}

/// What the program is asked to do.
#[derive(Default)]
struct Options {
    write: bool,
    quick: bool,
    lines: bool,
    classes: bool,
    before: Option<String>,
}

impl Options {
    fn read(mut arguments: impl Iterator<Item = String>) -> Result<Options, String> {
        let mut options = Options::default();
        while let Some(argument) = arguments.next() {
            match argument.as_str() {
                "--write" => options.write = true,
                "--quick" => options.quick = true,
                "--lines" => options.lines = true,
                "--classes" => options.classes = true,
                "--before" => options.before = Some(arguments.next().ok_or("--before needs a program")?),
                other => return Err(format!("{other} is none of: --write --quick --lines --classes --before")),
            }
        }
        Ok(options)
    }

    fn effort(&self) -> Effort {
        match self.quick {
            true => Effort { time: Duration::from_millis(5), wanted: 3 },
            false => Effort { time: Duration::from_millis(400), wanted: 100 },
        }
    }

    fn earlier(&self) -> HashMap<String, f64> {
        self.before.as_ref().map(|program| earlier(program, self.quick)).unwrap_or_default()
    }

    fn report(&self) -> Report {
        let effort = self.effort();
        Report {
            machine: machine(),
            command: COMMAND.to_string(),
            rows: rows(effort),
            growth: growth(effort),
            classes: classes(effort, &self.earlier()),
            calls: calls(effort),
            arrays: arrays(effort),
            nodes: nodes(effort),
            refused: refused(effort),
            buffers: buffers(effort),
            writing: writing(effort),
            stack: stack::smallest(),
        }
    }
}

fn main() {
    let arguments: Vec<String> = std::env::args().skip(1).collect();
    if let [mark, kib] = arguments.as_slice() {
        if mark == stack::CHILD {
            return stack::child(kib.parse().expect("a number of KiB"));
        }
    }
    let options = Options::read(arguments.into_iter()).unwrap_or_else(|what| {
        eprintln!("{what}");
        std::process::exit(2);
    });
    if options.classes {
        return print!("{}", report::class_lines(&classes(options.effort(), &HashMap::new())));
    }
    let report = options.report();
    let page = report::page(&report);
    print!("{}", if options.lines { report::lines(&report) } else { page.clone() });
    if options.write {
        std::fs::write(format!("{DOCS}/SPEED.md"), &page).expect("docs/SPEED.md is written");
        std::fs::write(format!("{DOCS}/speed.svg"), plot::svg(&panels(&report))).expect("docs/speed.svg is written");
    }
}
