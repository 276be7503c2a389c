//! What the Rust says of a table and a question.

use crate::diagnostic::diagnostic;
use crate::domain::{outside, outside_before};
use crate::question::{build, Asked};
use crate::rust::{Judged, Ty};
use crate::table::{fill, Filled};
use crate::types::encode;
use reading::words::{self, lent, refusal};
use reading::{print_answer, split_input, Answer, Diagnostic, Said, BUFFER};

pub use crate::domain::Outside;

/// Runs the methods on a question under a filled table.
pub fn run(filled: &mut Filled, asked: &Asked, keep: bool) -> Judged {
    filled.checker.set_context(asked.current_type.as_deref(), asked.package.as_deref(), asked.in_suspend);
    filled.checker.run(&asked.tree, keep)
}

/// The bytes of a type under a table's names.
pub fn type_bytes(ty: &Ty, names: &[String]) -> Vec<u8> {
    let id = |name: &str| match names.iter().position(|n| n == name) {
        Some(i) => i as u16,
        None => panic!("{} is no name of the table", name),
    };
    let mut bytes = Vec::new();
    encode(ty, &id, &mut bytes);
    bytes
}

/// A run of the methods on an accepted table and question.
pub struct Run {
    pub filled: Filled,
    pub asked: Asked,
    pub judged: Judged,
}

impl Run {
    /// A run where the Rust is the yardstick. No message has been read.
    pub fn inside(table: &[u8], question: &[u8]) -> Result<Run, Outside> {
        if let Some(why) = outside_before(table, question) {
            return Err(why);
        }
        let run = Run::of(table, question);
        match outside(&run, table) {
            Some(why) => Err(why),
            None => Ok(run),
        }
    }

    pub fn of(table: &[u8], question: &[u8]) -> Run {
        let mut filled = fill(table);
        let asked = build(question, &filled.names);
        let judged = run(&mut filled, &asked, true);
        Run { filled, asked, judged }
    }

    /// The diagnostics in order.
    pub fn diagnostics(&self) -> Vec<Diagnostic> {
        let Judged { errors, lines, .. } = &self.judged;
        errors.iter().zip(lines).map(|(e, line)| diagnostic(e, *line, &self.asked.positions)).collect()
    }

    /// The finished nodes in order, each with its type.
    pub fn finished(&self) -> Vec<(usize, Vec<u8>)> {
        let bytes = |(node, ty): &(usize, Ty)| (*node, type_bytes(ty, &self.filled.names));
        self.judged.finished.iter().map(bytes).collect()
    }

    pub fn said(&self) -> Said {
        let diagnostics = self.diagnostics();
        let passed = diagnostics.is_empty() && !self.judged.error_seen;
        Said::Judged { ty: type_bytes(&self.judged.ty, &self.filled.names), passed, diagnostics }
    }
}

/// What the Rust says, inside the compared domain or not. Refusals are the words'.
pub fn said(table: &[u8], question: &[u8]) -> Said {
    match refusal(table, question) {
        0 => Run::of(table, question).said(),
        number => Said::Refused(number),
    }
}

/// What the Rust says; none outside the compared domain.
pub fn said_inside(table: &[u8], question: &[u8]) -> Option<Said> {
    match refusal(table, question) {
        0 => Run::inside(table, question).ok().map(|run| run.said()),
        number => Some(Said::Refused(number)),
    }
}

/// Whether the case is inside the compared domain.
pub fn in_domain(table: &[u8], question: &[u8]) -> bool {
    refusal(table, question) != 0 || Run::inside(table, question).is_ok()
}

/// The answer that the Rust gives, inside the compared domain or not; the whole buffer is written.
pub fn answer(table: &[u8], question: &[u8], buffer: &mut [u8]) -> Answer {
    lent::answer(&said(table, question), buffer)
}

/// The program: standard input to standard output.
pub fn program(input: &[u8]) -> String {
    let (table, question) = split_input(input);
    printed(table, question)
}

/// The same from a table and a question.
pub fn printed(table: &[u8], question: &[u8]) -> String {
    let mut buffer = vec![0; BUFFER];
    let answer = answer(table, question, &mut buffer);
    print_answer(&answer, &buffer)
}

/// Whose answer is stored.
#[derive(Debug, Clone, Copy, PartialEq, Eq)]
pub enum Source {
    Rust,
    Words,
}

/// What the program prints: by the Rust inside the compared domain, by the second reading elsewhere.
pub fn printed_by(table: &[u8], question: &[u8]) -> (Source, String) {
    if in_domain(table, question) {
        (Source::Rust, printed(table, question))
    } else {
        (Source::Words, words::printed(table, question))
    }
}
