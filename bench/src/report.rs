//! The measured numbers as a page.

use crate::arrays::{Place, CALLS, DEEP, PLACES, TABLES};
use crate::classes::{self, Family};
use crate::collide::SAME;
use crate::inputs::{Input, Make, TURN};
use crate::measure::Times;
use crate::overloads::Call;
use crate::writing::{Writing, STARTS};
use aura_judge::raw::LOAD_LONGEST;
use std::collections::HashMap;
use std::fmt::Write;

/// How many characters a line of prose may have.
const WIDTH: usize = 100;

/// Microseconds with three digits that count.
pub fn us(nanoseconds: f64) -> String {
    let value = nanoseconds / 1000.0;
    match value {
        v if v >= 100.0 => format!("{v:.0}"),
        v if v >= 10.0 => format!("{v:.1}"),
        v => format!("{v:.2}"),
    }
}

/// One measured input.
pub struct Row {
    pub make: Make,
    pub bytes: usize,
    pub asked: String,
    pub times: Times,
}

/// One table, then the table of twice its size, and so on.
pub struct Growth {
    pub make: Make,
    /// Bytes, and the times with a question of 8 nodes.
    pub steps: Vec<(usize, Times)>,
}

impl Growth {
    fn times(&self) -> Vec<f64> {
        self.steps.iter().map(|(_, times)| times.whole).collect()
    }
}

/// The factors between a time and that of a table of twice the size.
fn factors(times: &[f64]) -> Vec<f64> {
    times.windows(2).map(|pair| pair[1] / pair[0]).collect()
}

/// Classes of one family at one size.
pub struct ClassRow {
    pub family: Family,
    pub bytes: usize,
    pub classes: usize,
    pub functions: usize,
    /// As in `Times`; there is no Rust beside them.
    pub check: f64,
    pub whole: f64,
    /// `whole` of an older build.
    pub before: Option<f64>,
}

impl ClassRow {
    pub fn name(&self) -> String {
        format!("growth: {}, {} bytes", self.family.words(), self.bytes)
    }

    fn judgement(&self) -> f64 {
        (self.whole - self.check).max(0.0)
    }
}

/// Calls with several arguments over one list.
pub struct CallRow {
    pub call: Call,
    pub bytes: usize,
    pub overloads: usize,
    pub times: Times,
}

impl CallRow {
    /// Nanoseconds of the judgement for each call, overload and argument.
    fn step(&self) -> f64 {
        self.times.judgement() / (self.call.calls * self.overloads * self.call.arguments()) as f64
    }
}

/// Types of Arrays whose size has one width.
pub struct ArrayRow {
    pub place: Place,
    /// The width in words.
    pub asked: String,
    /// Of table and question together.
    pub bytes: usize,
    /// `Place::time` says of what.
    pub time: f64,
    /// That where each size has four bytes.
    pub four: f64,
    /// The Rust's, where it is a yardstick.
    pub rust: Option<f64>,
}

impl ArrayRow {
    pub fn new(input: &Input, place: Place, time: f64, four: f64, rust: Option<f64>) -> ArrayRow {
        let bytes = input.table.len() + input.question.len();
        ArrayRow { place, asked: input.asked.clone(), bytes, time, four, rust }
    }
}

/// Times by node count under one table.
pub struct NodeGrowth {
    pub name: String,
    pub steps: Vec<(usize, Times)>,
}

pub struct RefusedRow {
    pub what: &'static str,
    pub number: u8,
    pub bytes: usize,
    pub time: f64,
}

pub struct Report {
    pub machine: String,
    pub command: String,
    pub rows: Vec<Row>,
    pub growth: Vec<Growth>,
    /// Family by family, by size.
    pub classes: Vec<ClassRow>,
    pub calls: Vec<CallRow>,
    pub arrays: Vec<ArrayRow>,
    pub nodes: Vec<NodeGrowth>,
    pub refused: Vec<RefusedRow>,
    /// The lent buffer's length, and the time of a question of one node without a table.
    pub buffers: Vec<(usize, f64)>,
    /// Empty where the library has no such writer.
    pub writing: Vec<Writing>,
    pub stack: Option<usize>,
}

/// A line for each measured row: its name, and nanoseconds of the judge and of the Rust's filling and methods (nothing where
/// there is no such side); of calls with several arguments the judgement alone, and the Rust's methods; of Arrays what `Place`
/// says. tools/turns.py reads them. The rows of the test load's writer are left out, since a library from before it has none.
pub fn lines(report: &Report) -> String {
    let mut out = String::new();
    let mut line = |name: String, judge: f64, rust: Option<f64>| out.push_str(&row_line(&name, judge, rust));
    for Row { make, bytes, asked, times } in &report.rows {
        line(format!("{}, {bytes} bytes, {asked}", make.words()), times.whole, Some(times.rust()));
    }
    for Growth { make, steps } in &report.growth {
        for (bytes, times) in steps {
            line(format!("growth: {}, {bytes} bytes", make.words()), times.whole, Some(times.rust()));
        }
    }
    for row in &report.classes {
        line(row.name(), row.whole, None);
    }
    for CallRow { call, bytes, times, .. } in &report.calls {
        let name = format!("judgement: {}, {bytes} bytes, {}", call.list.words(), call.asked());
        line(name, times.judgement(), Some(times.run));
    }
    for ArrayRow { place, asked, bytes, time, rust, .. } in &report.arrays {
        let what = if *place == Place::Params { "judgement" } else { "arrays" };
        line(format!("{what}: {}, {asked}, {bytes} bytes", place.words()), *time, *rust);
    }
    for NodeGrowth { name, steps } in &report.nodes {
        for (count, times) in steps {
            line(format!("growth: {name}, {count} nodes"), times.whole, Some(times.rust()));
        }
    }
    for RefusedRow { what, number, bytes, time } in &report.refused {
        line(format!("refused: {what}, number {number}, {bytes} bytes"), *time, None);
    }
    for (bytes, time) in &report.buffers {
        line(format!("buffer: {bytes} bytes"), *time, None);
    }
    out
}

fn row_line(name: &str, judge: f64, rust: Option<f64>) -> String {
    let rust = rust.map_or(String::new(), |rust| format!("{rust:.2}"));
    format!("{name}\t{judge:.2}\t{rust}\n")
}

/// The lines of the rows of classes alone.
pub fn class_lines(rows: &[ClassRow]) -> String {
    rows.iter().map(|row| row_line(&row.name(), row.whole, None)).collect()
}

/// The judge's times by the names of the rows, from such lines, or the line that is none.
pub fn read_lines(text: &str) -> Result<HashMap<String, f64>, String> {
    let row = |line: &str| {
        let (name, rest) = line.split_once('\t')?;
        let (judge, _) = rest.split_once('\t')?;
        Some((name.to_string(), judge.parse().ok()?))
    };
    text.lines().map(|line| row(line).ok_or(line.to_string())).collect()
}

fn median(mut values: Vec<f64>) -> f64 {
    values.sort_by(f64::total_cmp);
    let middle = values.len() / 2;
    if values.len() % 2 == 1 {
        values[middle]
    } else {
        (values[middle - 1] + values[middle]) / 2.0
    }
}

fn verdict(out: &mut String, bar: &str, found: String, met: bool) {
    let _ = writeln!(out, "| {bar} | {found} | {} |", if met { "met" } else { "**not met**" });
}

/// The bar of twice the table.
fn twice(out: &mut String, words: &str, times: &[f64]) {
    let factors = factors(times);
    let worst = factors.iter().copied().fold(0.0, f64::max);
    let last = factors.last().copied().unwrap_or(0.0);
    let bar = format!("twice the table, at most 2.3 times the time: {words}");
    verdict(out, &bar, format!("at most {worst:.2}; {last:.2} for the longest"), worst <= 2.3);
}

/// The rows of classes, family by family.
fn families(report: &Report) -> impl Iterator<Item = &[ClassRow]> {
    report.classes.chunk_by(|a, b| a.family == b.family)
}

fn bars(report: &Report) -> String {
    let mut out = "| Bar | Measured | |\n|---|---|---|\n".to_string();
    let ratios: Vec<f64> = report.rows.iter().map(|row| row.times.ratio()).collect();
    let worst = ratios.iter().copied().fold(0.0, f64::max);
    let over = ratios.iter().filter(|ratio| **ratio > 1.0).count();
    let found = format!("at most {worst:.2}; above 1 on {over} of {}", ratios.len());
    verdict(&mut out, "check and judgement, at most the Rust's filling and methods on every input", found, over == 0);
    let middle = median(ratios);
    verdict(&mut out, "at most half of it on the median", format!("{middle:.2}"), middle <= 0.5);
    let bare = || report.rows.iter().filter(|row| row.make == Make::Nothing);
    let worst = bare().map(|row| row.times.ratio()).fold(0.0, f64::max);
    verdict(&mut out, "a fifth where there is no table", format!("at most {worst:.2}"), worst <= 0.2);
    let worst = bare().map(|row| row.times.judgement() / row.times.run).fold(0.0, f64::max);
    let bar = "the judgement alone, at most 3 times the Rust's methods where the table is empty";
    verdict(&mut out, bar, format!("at most {worst:.2}"), worst <= 3.0);
    let names = report.rows.iter().filter(|row| row.make == Make::Names);
    if let Some(worst) = names.map(|row| row.times.check / row.times.fill).max_by(f64::total_cmp) {
        let bar = "the check of names, at most half of the Rust's filling";
        verdict(&mut out, bar, format!("at most {worst:.2}"), worst <= 0.5);
    }
    for growth in &report.growth {
        twice(&mut out, growth.make.words(), &growth.times());
    }
    for rows in families(report).filter(|rows| rows[0].family.has_bar()) {
        let times: Vec<f64> = rows.iter().map(|row| row.whole).collect();
        twice(&mut out, rows[0].family.words(), &times);
    }
    if let Some(longest) = report.writing.last() {
        let bar = format!("a load of {} nodes, at most 1.5 times the plainest Rust writer's time", longest.nodes);
        verdict(&mut out, &bar, format!("{:.2}", longest.ratio()), longest.ratio() <= 1.5);
    }
    out
}

const CLASS_TABLES: &str = "The Rust has no such rule, so that the judge is measured alone. The classes stand in a row, \
    from a top to a lowest class. One chain: each is the superclass of the next. A tower: the three before a class are its \
    superclass and its interfaces. The functions are one list, each with one parameter, the top, and the lowest class as its \
    result. The question has 8 nodes: {CALLS} calls of that list in each other, of which the innermost passes the lowest class, \
    so that each passes it, and is a tie of all functions where there are two or more. Where there are as many bytes of \
    functions as of classes with their names, classes × functions is largest. The other rows have no bar:";

const OTHER_CLASSES: [&str; 4] = [
    "- classes that all have the top as their superclass, with one function: the one step that is asked for is short, and the \
     sweep is not;",
    "- classes without parents, with functions that take another class, but for the last, which takes the lowest and is chosen;",
    "- functions with {MOST} parameters, each the top, and one call with {MOST} arguments, of the lowest class or of the {MOST} \
     lowest;",
    "- equality of the lowest class and the top, either way round, in 8 nodes, and no function.",
];

const CLASS_TIMES: &str = "What is above the classes of a call's arguments is found once a call, by one sweep over the class \
    records from the last of these classes to the first record of all; each overload then takes a look. Before order 6 each \
    overload climbed along the superclasses, a lookup a step. The last two columns are such a build's, where it was measured: \
    `--before` names the benchmark's program linked with its library (`AURA_LIB_DIR=FOLDER cargo build --release --target-dir DIR \
    --no-default-features --features load,subclass,large-array`), which is handed the same tables in the form of then, 8 bytes a \
    class in place of 12, and was run ahead of these rows. It knows no interfaces.";

/// The prose of the classes' section.
fn class_words() -> String {
    let filled = |text: &str, indent: &str| {
        let text = text.replace("{CALLS}", &classes::CALLS.to_string()).replace("{MOST}", &classes::MOST.to_string());
        wrapped(&text, indent)
    };
    let list: Vec<String> = OTHER_CLASSES.iter().map(|item| filled(item, "  ")).collect();
    format!("{}\n\n{}\n\n{}\n", filled(CLASS_TABLES, ""), list.join("\n"), filled(CLASS_TIMES, ""))
}

/// A cell with how often `half` goes into `whole`.
fn over_half(whole: Option<f64>, half: Option<f64>) -> String {
    whole.zip(half).map_or(String::new(), |(whole, half)| format!("{:.2}", whole / half))
}

fn class_rows(report: &Report) -> String {
    let mut out = String::from(
        "| Table | Bytes | Classes | Functions | Check | Judgement | / that of half the bytes | Together | / that of half the bytes | Before: together | / that of half the bytes |\n\
         |---|--:|--:|--:|--:|--:|--:|--:|--:|--:|--:|\n",
    );
    for rows in families(report) {
        let mut half: Option<&ClassRow> = None;
        out.extend(rows.iter().map(|row| class_row(row, half.replace(row))));
    }
    out
}

fn class_row(row: &ClassRow, half: Option<&ClassRow>) -> String {
    let ClassRow { family, bytes, classes, functions, check, whole, before } = row;
    let (check, judgement, together) = (us(*check), us(row.judgement()), us(*whole));
    let judgements = over_half(Some(row.judgement()), half.map(ClassRow::judgement));
    let wholes = over_half(Some(*whole), half.map(|half| half.whole));
    let befores = over_half(*before, half.and_then(|half| half.before));
    let before = before.map_or(String::new(), us);
    format!(
        "| {} | {bytes} | {classes} | {functions} | {check} | {judgement} | {judgements} | {together} | {wholes} | {before} | {befores} |\n",
        family.words()
    )
}

fn calls(report: &Report) -> String {
    let mut out = String::from(
        "| Table | Bytes | Overloads | Question | Check | Judgement | Methods | Judgement / (calls × overloads × arguments), ns | Judgement / methods |\n\
         |---|--:|--:|---|--:|--:|--:|--:|--:|\n",
    );
    for row in &report.calls {
        let CallRow { call, bytes, overloads, times } = row;
        let (check, judgement, methods) = (us(times.check), us(times.judgement()), us(times.run));
        let _ = writeln!(
            out,
            "| {} | {bytes} | {overloads} | {} | {check} | {judgement} | {methods} | {:.1} | {:.2} |",
            call.list.words(),
            call.asked(),
            row.step(),
            times.judgement() / times.run
        );
    }
    out
}

fn array_inputs() -> String {
    let [fields, deep, leaves, params] = PLACES.map(Place::count);
    format!(
        "Since order 5 the size of an Array may have eight bytes; the Rust is asked with sizes of four alone. Here are as many Arrays \
         with sizes of four bytes as with sizes of eight, and as many where each has one or the other at random, in types \
         with an Int in the innermost Array: {fields} fields of one Array and a question of one node; {deep} fields of {DEEP} \
         Arrays in each other, the most for which 192 bytes have room where sizes have eight; a question of 64 nodes without \
         a table, {leaves} of them leaves of {DEEP} Arrays; and {CALLS} calls of one list of {params} functions, each with \
         one parameter of {DEEP}. The sizes of these parameters and of the arguments differ, so that each comparison goes \
         through all {DEEP} to the Int, and each call is a tie of them all. {TABLES} tables take turns, and so do the widths."
    )
}

const ARRAY_TIMES: &str = "The time is that of check and judgement together, of calls that of the judgement alone. The Rust's \
    is that of filling and methods, of leaves that of tree and methods, since it reads their types with the tree, and of \
    calls that of its methods. Bytes are those of table and question together. No bar is set.";

fn arrays(report: &Report) -> String {
    let mut out = String::from(
        "| Types | Each Array | Bytes | Arrays | Time | Time / Arrays, ns | Time / that of 4 bytes | Time / the Rust's |\n\
         |---|---|--:|--:|--:|--:|--:|--:|\n",
    );
    for ArrayRow { place, asked, bytes, time, four, rust } in &report.arrays {
        let over_rust = rust.map_or(String::new(), |rust| format!("{:.2}", time / rust));
        let (arrays, each) = (place.arrays(), time / place.arrays() as f64);
        let _ = writeln!(
            out,
            "| {} | {asked} | {bytes} | {arrays} | {} | {each:.1} | {:.2} | {over_rust} |",
            place.words(),
            us(*time),
            time / four
        );
    }
    out
}

fn writing(report: &Report) -> String {
    if report.writing.is_empty() {
        return "Not measured in this run.\n".to_string();
    }
    let mut out = String::from("| Nodes | Library | Plain Rust | Library / plain Rust |\n|--:|--:|--:|--:|\n");
    for row in &report.writing {
        let Writing { nodes, library, plain } = row;
        let _ = writeln!(out, "| {nodes} | {library:.0} | {plain:.0} | {:.2} |", row.ratio());
    }
    out
}

fn rows(report: &Report) -> String {
    let mut out = String::from(
        "| Table | Bytes | Question | Check | Judgement | Together | Filling | Methods | Tree | Together / (filling + methods) |\n\
         |---|--:|---|--:|--:|--:|--:|--:|--:|--:|\n",
    );
    for row in &report.rows {
        let t = &row.times;
        let _ = writeln!(
            out,
            "| {} | {} | {} | {} | {} | {} | {} | {} | {} | {:.2} |",
            row.make.words(),
            row.bytes,
            row.asked,
            us(t.check),
            us(t.judgement()),
            us(t.whole),
            us(t.fill),
            us(t.run),
            us(t.build),
            t.ratio()
        );
    }
    out
}

/// Prose in lines of at most `WIDTH` characters; those behind the first are indented.
fn wrapped(text: &str, indent: &str) -> String {
    let mut words = text.split_whitespace();
    let mut out = words.next().unwrap_or("").to_string();
    let mut width = out.chars().count();
    for word in words {
        let more = 1 + word.chars().count();
        if width + more <= WIDTH {
            out.push(' ');
            width += more;
        } else {
            let _ = write!(out, "\n{indent}");
            width = indent.len() + more - 1;
        }
        out.push_str(word);
    }
    out
}

pub fn page(report: &Report) -> String {
    let times: Vec<String> =
        report.buffers.iter().map(|(bytes, time)| format!("{bytes} bytes {} µs", us(*time))).collect();
    let buffers = format!(
        "- Buffers: the judge clears the lent buffer (320 bytes here) and the answer itself, inside the time. The Rust has \
         none. No caches are cleared between runs. With longer buffers, one node and no table: {}.",
        times.join(", ")
    );
    let stack = match report.stack {
        Some(kib) => format!(
            "The questions of 64 nodes that go deepest (unary, member, named argument, call and method call, 63 in each \
             other, under full tables; the same around calls, method calls and comparisons whose types are 189 Nullable, 27 \
             Nullable Arrays, or 17 whose size has eight bytes, over a class that has the other as its superclass or as an \
             interface, or hasn't) run on a thread with a stack of {kib} KiB, which is the least in steps of 4 KiB; the \
             thread's own start is in it. The judge uses no heap: the library imports block operations of the C library \
             alone (`aura-judge/tests/imports.rs`)."
        ),
        None => "Not measured in this run.".to_string(),
    };
    format!(
        "# Speed

The judge beside the Rust's own methods (`oracle/`), both built for release, in one process on the
same inputs. The program stops where an answer differs from the second reading's (`reading/`), or
from the Rust's, which has no answer to compare where a class has a superclass or an interface, a
call more than one unnamed argument, or an Array a size of eight bytes (`docs/DIFFERENCES.md`).
`docs/history/speed.md` has what was tried and what is left, `docs/history/order-3-speed.md` what
was tried for names.

    {}

{}

## How it is measured

Times are in microseconds: the minimum of many runs, in which the parts take turns.
`bench/src/measure.rs` has the parts:

- **Check**: the judge on the table with an empty question. Number 8 comes behind the table's check,
  so this is the check and what every call does.
- **Together**: the judge on the table and the question. **Judgement** is the difference, with the
  question's own check in it.
- **Filling**: the plainest filling of `Checker`'s maps from the same bytes, without any check
  (`table::fill`). **Methods**: `answer::run`. **Tree**: the question's tree (`question::build`),
  which the ratio leaves out. What they allocate is dropped outside the time.
{}

Twice the table is measured with a question of 8 nodes. A processor learns the branches of a short
table that is judged again and again, but not those of a long one, and that would show as a step. So
at each size as many tables as have {turn},000 bytes together take turns, with the same records in
other orders, and so do the sizes; a time is that of one table. `docs/DECISIONS.md`, 29, says why,
and what one table again and again gave.

The tables of five of these bars have keys chosen against the index (`bench/src/collide.rs`):

- names of one bucket, otherwise random; then names of one bucket that agree in the first {SAME}
  digits by which its tree branches, so that each is searched behind at least {SAME} others where
  there are so many;
- records of kinds 5 to 8 whose owners and names have as few buckets as ids allow, half of the bytes
  being names;
- classes of all names, whose superclass has no record and is searched before each of them and ahead
  of it (the Rust is timed on these as on the others, but its answers are not compared);
- functions of one bucket, half of the bytes being names; the question calls the last function.

`cargo run --release -- --lines`, in `bench/`, prints every measured row, also those of the plot, of
classes, of calls with several arguments, of Arrays and of refused inputs: its name, and the
nanoseconds of the judge and of the Rust's filling and methods, where it has them (of those calls
the judgement alone and the Rust's methods; of Arrays as their section says). The rows under
[Writing](#writing) are not among them.
`tools/turns.py` compares the rows of two libraries; one from before document 02's orders is linked
with `--no-default-features`, which leaves out what it does not have.

## Bars

{}
## Every input

{}
## Growth

![Time by table size and by nodes](speed.svg)

## Classes with parents

{}
{}
## Calls with several arguments

One list of functions fills the table, each with an Int as its result. The question is calls of that
list in each other, each the first argument of the one around it; named arguments come first. Where
the types do not differ, all parameters and arguments are Int: every comparison is of equal types,
each overload matches and each call is a tie of them all. Where they differ, the first overload
takes two of Any and is the only one that matches; the others take, in turn, an Int and a Boolean, a
Boolean and a String, and a String and an Int, and the arguments are an Int and a String.

Before order 4 every unnamed argument was compared with the first parameter that no argument names;
now each has its own. The answers of these rows are the same by either rule, and so is the number of
comparisons and how many of them are of equal types. Neither the library before order 4 nor the one
with it ends the comparisons of an overload at the first that fails. Order 4's bar is of calls with
unnamed arguments alone: at most 1.1 times the judgement of the build before (`tools/turns.py`, the
rows that begin with `judgement`; `docs/orders/` has what it gave).

{}
## Arrays by the width of their size

{}

{}

{}
## Writing

A question of the test load, written to a buffer of {LOAD_LONGEST} bytes by the library (`aura_load`) and
by the plainest Rust writer of the same bytes (`bench/src/writing.rs`). The two take turns, and so
do {STARTS} start numbers; a time is that of one question, here in nanoseconds.

{}
## Stack

{}
",
        report.command,
        wrapped(&report.machine, ""),
        wrapped(&buffers, "  "),
        bars(report),
        rows(report),
        class_words(),
        class_rows(report),
        calls(report),
        wrapped(&array_inputs(), ""),
        wrapped(ARRAY_TIMES, ""),
        arrays(report),
        writing(report),
        wrapped(&stack, ""),
        turn = TURN / 1000,
    )
}

#[cfg(test)]
mod tests {
    use super::*;
    use crate::classes::{Asked, Parents};
    use crate::overloads::CALLS;

    fn class_row_of(asked: Asked, bytes: usize) -> ClassRow {
        let family = Family { parents: Parents::Chain, asked };
        ClassRow { family, bytes, classes: 24, functions: 55, check: 0.0, whole: 0.0, before: None }
    }

    fn report() -> Report {
        let times = Times { check: 1234.5, whole: 2345.6, fill: 34567.8, build: 456.7, run: 5678.9 };
        Report {
            machine: format!("Machine: {}.", "a name of some length, ".repeat(20)),
            command: "cargo run".to_string(),
            rows: vec![Row { make: Make::Nothing, bytes: 0, asked: "1 node".to_string(), times }],
            growth: vec![Growth { make: Make::Names, steps: vec![(1875, times), (3750, times)] }],
            classes: vec![
                ClassRow { check: 2000.0, whole: 3000.0, ..class_row_of(Asked::List, 1861) },
                ClassRow { check: 4000.0, whole: 6900.0, before: Some(90_000.0), ..class_row_of(Asked::List, 3744) },
                ClassRow { check: 1000.0, whole: 1250.0, ..class_row_of(Asked::Equality, 1861) },
            ],
            calls: vec![CallRow {
                call: CALLS[1],
                bytes: 59_985,
                overloads: 3527,
                times: Times { check: 231_000.0, whole: 14_339_000.0, fill: 1.0, build: 1.0, run: 56_432_000.0 },
            }],
            arrays: [(Place::Leaves, 20_000.0, Some(40_000.0)), (Place::Params, 30_000.0, None)]
                .map(|(place, time, rust)| ArrayRow {
                    place,
                    asked: "size of 4 bytes".to_string(),
                    bytes: 11_545,
                    time,
                    four: 20_000.0,
                    rust,
                })
                .into(),
            nodes: vec![],
            refused: vec![],
            buffers: [0, 320, 4096, 65_535].map(|bytes| (bytes, 123_456.7)).to_vec(),
            writing: vec![Writing { nodes: 64, library: 1500.0, plain: 1000.0 }],
            stack: Some(4096),
        }
    }

    #[test]
    fn a_writer_has_its_bar_and_its_row() {
        let text = page(&report());
        assert!(text.contains("| a load of 64 nodes, at most 1.5 times the plainest Rust writer's time | 1.50 | met |"));
        assert!(text.contains("| 64 | 1500 | 1000 | 1.50 |"));
        let slow = page(&Report { writing: vec![Writing { nodes: 64, library: 1501.0, plain: 1000.0 }], ..report() });
        assert!(slow.contains("time | 1.50 | **not met** |"));
        assert!(!lines(&report()).contains("load of"));
        assert!(!page(&Report { writing: vec![], ..report() }).contains("a load of"));
    }

    #[test]
    fn names_have_their_bar() {
        let names = |check| {
            let times = Times { check, whole: 1100.0, fill: 2000.0, build: 1.0, run: 100.0 };
            vec![Row { make: Make::Names, bytes: 26, asked: "1 node".to_string(), times }]
        };
        let bar = "| the check of names, at most half of the Rust's filling | at most ";
        assert!(bars(&Report { rows: names(1000.0), ..report() }).contains(&format!("{bar}0.50 | met |")));
        assert!(bars(&Report { rows: names(1001.0), ..report() }).contains(&format!("{bar}0.50 | **not met** |")));
        assert!(!bars(&report()).contains("check of names"));
    }

    #[test]
    fn classes_have_their_rows_and_their_bar() {
        let text = page(&report());
        let words = "one chain of classes, functions that take its top";
        assert!(text.contains(&format!("| {words} | 1861 | 24 | 55 | 2.00 | 1.00 |  | 3.00 |  |  |  |\n")));
        assert!(text.contains(&format!("| {words} | 3744 | 24 | 55 | 4.00 | 2.90 | 2.90 | 6.90 | 2.30 | 90.0 |  |\n")));
        let equality =
            "| one chain of classes, equality of its ends | 1861 | 24 | 55 | 1.00 | 0.25 |  | 1.25 |  |  |  |\n";
        assert!(text.contains(equality));
        let bar = format!("| twice the table, at most 2.3 times the time: {words} | at most 2.3");
        assert!(bars(&report()).contains(&format!("{bar}0; 2.30 for the longest | met |")));
        assert!(!bars(&report()).contains("equality"));
        let mut slow = report();
        slow.classes[1].whole = 6930.0;
        assert!(bars(&slow).contains(&format!("{bar}1; 2.31 for the longest | **not met** |")));
    }

    #[test]
    fn the_time_before_has_its_growth() {
        let mut both = report();
        both.classes[0].before = Some(24_000.0);
        assert!(page(&both).contains("| 3.00 |  | 24.0 |  |\n"));
        assert!(page(&both).contains("| 6.90 | 2.30 | 90.0 | 3.75 |\n"));
    }

    #[test]
    fn lines_of_classes_are_read_as_they_are_written() {
        let written = class_lines(&report().classes);
        assert!(lines(&report()).contains(&written));
        let read = read_lines(&written).expect("lines");
        assert_eq!(read.len(), 3);
        assert_eq!(read["growth: one chain of classes, functions that take its top, 3744 bytes"], 6900.0);
        assert_eq!(read_lines("a\t1.0"), Err("a\t1.0".to_string()));
        assert_eq!(read_lines(&format!("{written}a\tx\t\n")), Err("a\tx\t".to_string()));
    }

    /// 14,108 µs for 20 calls, 3,527 overloads and 2 arguments.
    #[test]
    fn calls_have_their_judgement() {
        let text = page(&report());
        assert!(text.contains(
            "| overloads of 2 parameters | 59985 | 3527 | 20 calls, 2 unnamed | 231 | 14108 | 56432 | 100.0 | 0.25 |"
        ));
        let row = "judgement: overloads of 2 parameters, 59985 bytes, 20 calls, 2 unnamed\t14108000.00\t56432000.00\n";
        assert!(lines(&report()).contains(row));
    }

    /// 20 µs for 60 leaves of 19 Arrays, 30 µs where 15 calls go over 290 functions that take 19.
    #[test]
    fn arrays_have_their_rows_and_no_bar() {
        let text = page(&report());
        assert!(text.contains("| leaves of 19 Arrays | size of 4 bytes | 11545 | 1140 | 20.0 | 17.5 | 1.00 | 0.50 |\n"));
        let params = "| overloads that take 19 Arrays | size of 4 bytes | 11545 | 82650 | 30.0 | 0.4 | 1.50 |  |\n";
        assert!(text.contains(params));
        assert!(!bars(&report()).contains("Array"));
        let rows = "arrays: leaves of 19 Arrays, size of 4 bytes, 11545 bytes\t20000.00\t40000.00\n\
                    judgement: overloads that take 19 Arrays, size of 4 bytes, 11545 bytes\t30000.00\t\n";
        assert!(lines(&report()).contains(rows));
    }

    #[test]
    fn prose_has_at_most_100_characters_a_line() {
        for page in [page(&report()), page(&Report { stack: None, ..report() })] {
            for line in page.lines().filter(|line| !line.starts_with('|')) {
                assert!(line.chars().count() <= WIDTH, "{line}");
            }
        }
    }

    #[test]
    fn wrapping_keeps_the_words() {
        let text = "word ".repeat(50) + &"w".repeat(120) + " µs µs";
        let lines = wrapped(&text, "  ");
        assert_eq!(lines.split_whitespace().collect::<Vec<_>>(), text.split_whitespace().collect::<Vec<_>>());
        assert!(lines.lines().skip(1).all(|line| line.starts_with("  ") && !line.starts_with("   ")));
        assert_eq!(lines.lines().map(|line| line.chars().count()).collect::<Vec<_>>(), [99, 96, 56, 122, 7]);
        assert_eq!(wrapped("", "  "), "");
    }
}
