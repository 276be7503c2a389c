//! Two tables of a library, and what is said of a question.

use crate::why::{other_table, why};
use crate::{counted, numbered, spelled};
use reading::words::question::{read, Shape};
use reading::words::table::split;
use reading::words::undisturbed::{nodes, Stand, Tables};
use reading::words::{lent, said_under};
use reading::{print_answer, Said};

/// Two tables of which the second has one function more, as the order has them.
#[derive(Debug)]
pub struct Library<'a> {
    old: &'a [u8],
    new: &'a [u8],
    tables: Tables<'a>,
    /// The function's owner and name.
    function: String,
}

/// A call at which the condition fails.
#[derive(Debug, Clone, PartialEq, Eq)]
pub struct Call {
    pub node: usize,
    pub function: String,
    pub why: String,
}

/// What is said of a question.
#[derive(Debug, Clone, PartialEq, Eq)]
pub enum Verdict {
    /// The condition holds, and so many calls read the list.
    Undisturbed(usize),
    /// It is refused, with this number under both tables.
    Refused(u8),
    /// The condition fails at these calls.
    Failed {
        calls: Vec<Call>,
        /// What is printed under the old table and under the new one, where that differs.
        answers: Option<[String; 2]>,
    },
}

impl<'a> Library<'a> {
    /// The error says why the order promises nothing of these tables.
    pub fn of(old: &'a [u8], new: &'a [u8]) -> Result<Library<'a>, String> {
        let tables = Tables::of(old, new).map_err(|found| why(old, new, found))?;
        let function = spelled::member(&tables.new, tables.added.owner, tables.added.name);
        Ok(Library { old, new, tables, function })
    }

    /// What the new table has more.
    pub fn more(&self) -> String {
        let added = &self.tables.added;
        let record = spelled::record(&self.tables.new, split(self.new)[added.record]);
        let before = self.tables.old.functions(added.owner, added.name).len();
        format!(
            "the new table has one function more: record {} (counted from 0), {record}, behind {} of its list",
            added.record,
            counted(before, "other")
        )
    }

    /// Whether these bytes are one of the two tables.
    pub fn has(&self, table: &[u8]) -> bool {
        table == self.old || table == self.new
    }

    /// Whether questions with this table can be asked under the two. The error says why not.
    pub fn takes(&self, table: &[u8]) -> Result<(), String> {
        other_table(self.old, table)
    }

    pub fn ask(&self, question: &[u8]) -> Verdict {
        let calls = match self.tables.reading_calls(question) {
            Err(number) => return Verdict::Refused(number),
            Ok(calls) => calls,
        };
        let failing = calls.iter().filter(|call| !call.stand.holds());
        let failing: Vec<Call> = failing.map(|call| self.call(question, call.node, call.stand)).collect();
        if failing.is_empty() {
            return Verdict::Undisturbed(calls.len());
        }
        let answers = [&self.tables.old, &self.tables.new].map(|symbols| said_under(symbols, question));
        let answers = (answers[0] != answers[1]).then(|| answers.map(printed));
        Verdict::Failed { calls: failing, answers }
    }

    fn call(&self, question: &[u8], node: usize, stand: Stand) -> Call {
        let why = match stand {
            Stand::Dropped | Stand::Unfit | Stand::StaysWithOld => panic!("the condition holds"),
            Stand::Unknown(position) => {
                let name = self.argument(question, node, position);
                format!("the new function does not know {name}, the name of argument {position}")
            }
            Stand::NoMatch => String::from("no usable function of the old table matches"),
            Stand::NotLess { new, best } => {
                format!("the new function scores {new}, and the best of the old table {best}")
            }
        };
        Call { node, function: self.function.clone(), why }
    }

    /// The name of a call's argument, by its position from 1.
    fn argument(&self, question: &[u8], node: usize, position: usize) -> String {
        let question = read(question);
        let (Shape::Call(_, arguments) | Shape::Method(_, _, arguments)) = &nodes(&question.tree)[node].shape else {
            panic!("node {node} is no call")
        };
        let Shape::Named(id, _) = arguments[position - 1].shape else { panic!("argument {position} has no name") };
        spelled::name(&self.tables.old, id)
    }
}

/// What the program prints with as long a buffer as the diagnostics need, in one line.
fn printed(said: Said) -> String {
    let room = if let Said::Judged { diagnostics, .. } = &said { 5 * diagnostics.len() } else { 0 };
    let mut buffer = vec![0; room];
    let answer = lent::answer(&said, &mut buffer);
    print_answer(&answer, &buffer).trim_end().replace('\n', "/")
}

impl Verdict {
    /// In one line, or in one for each failing call and one for the answers.
    pub fn lines(&self) -> Vec<String> {
        match self {
            Verdict::Undisturbed(calls) => {
                let read = match calls {
                    0 => String::from("no call reads the list"),
                    1 => String::from("1 call reads the list"),
                    calls => format!("{calls} calls read the list"),
                };
                vec![format!("undisturbed ({read})")]
            }
            Verdict::Refused(number) => {
                vec![format!("refused: {}; the answer is the same under both tables", numbered(*number))]
            }
            Verdict::Failed { calls, answers } => {
                let line = |call: &Call| format!("node {}: call of {}: {}", call.node, call.function, call.why);
                let answers = match answers {
                    None => String::from("the answers are equal all the same"),
                    Some([old, new]) => {
                        format!("the answers differ: {old} under the old table, {new} under the new one")
                    }
                };
                calls.iter().map(line).chain([answers]).collect()
            }
        }
    }
}
