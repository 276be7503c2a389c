//! The program's run: the tables, then each question.

use crate::args::Args;
use crate::questions::{listed, of, shown, Listed};
use crate::{counted, Library, Verdict};
use reading::whole_input;
use reading::words::table::{check_of, table_number, ClassForm};
use std::fs;
use std::io::{self, Write};
use std::path::Path;
use std::time::{Duration, Instant};

/// How a run ended.
#[derive(Debug, Clone, Copy, PartialEq, Eq)]
pub enum Ended {
    /// The condition holds for each question that is not refused.
    Holds,
    /// It fails for one, and each was asked.
    Fails,
    /// The tables are not as the order has them, or a question was not asked.
    NotAsked,
}

/// How many questions went which way.
#[derive(Debug, Default)]
struct Counts {
    undisturbed: usize,
    refused: usize,
    failed: usize,
    /// Of those where the condition failed.
    differ: usize,
    not_asked: usize,
}

/// Where a run prints, and how it says what is beside that.
pub struct To<'a> {
    pub out: &'a mut dyn Write,
    pub say: &'a mut dyn FnMut(&str),
    /// How often it says how far it is.
    pub every: Duration,
}

/// Asks all questions that the arguments name. The error is one of printing.
pub fn run(args: &Args, mut to: To) -> io::Result<Ended> {
    let old = Table::read("old", &args.old, args.input.tables);
    let new = Table::read("new", &args.new, args.input.tables);
    let tables = old.and_then(|old| Ok((old, new?)));
    let library = tables.as_ref().map_err(String::clone).and_then(|(old, new)| {
        let hint = [old, new].into_iter().find(|table| table_number(table.bytes()) > 0).map_or("", Table::hint);
        Library::of(old.bytes(), new.bytes()).map_err(|what| what + hint)
    });
    let all = library.and_then(|library| Ok((library, listed(&args.questions, args.names.as_deref())?)));
    match all {
        Ok((library, files)) => {
            let other = (Vec::new(), library.takes(&[]));
            Run { args, library, to: &mut to, counts: Counts::default(), other }.all(files)
        }
        Err(what) => {
            (to.say)(&what);
            Ok(Ended::NotAsked)
        }
    }
}

/// A file with a table, alone or in a program's input.
struct Table {
    file: Vec<u8>,
    is_input: bool,
}

const CUT: &str = "the bytes end before the table does";

impl Table {
    fn read(which: &str, path: &Path, is_input: bool) -> Result<Table, String> {
        let said = |what: String| format!("the {which} table: {}", of(path, what));
        let file = fs::read(path).map_err(|error| said(format!("reading: {error}")))?;
        let table = Table { file, is_input };
        if is_input && whole_input(&table.file).is_none() {
            return Err(said(format!("{CUT}{}", table.hint())));
        }
        Ok(table)
    }

    fn bytes(&self) -> &[u8] {
        match whole_input(&self.file).filter(|_| self.is_input) {
            Some((table, _)) => table,
            None => &self.file,
        }
    }

    /// What is said of a table that is not accepted, where it is the other content.
    fn hint(&self) -> &'static str {
        match self.is_input {
            true if is_table(&self.file) => "; this is a table alone (without --input)",
            false if is_input(&self.file) => "; this is a program's input (--input tables)",
            _ => "",
        }
    }
}

/// Whether these bytes are an accepted table that has a record, today's or one of before order 6.
fn is_table(bytes: &[u8]) -> bool {
    !bytes.is_empty() && [ClassForm::Now, ClassForm::Older].iter().any(|form| check_of(bytes, *form).is_ok())
}

/// Whether these bytes are a program's input with such a table.
fn is_input(bytes: &[u8]) -> bool {
    whole_input(bytes).is_some_and(|(table, _)| is_table(table))
}

struct Run<'r, 't> {
    args: &'r Args,
    library: Library<'r>,
    to: &'r mut To<'t>,
    counts: Counts,
    /// The last table that was neither of the two, and what was said of it: many inputs have the same.
    other: (Vec<u8>, Result<(), String>),
}

impl Run<'_, '_> {
    fn all(mut self, files: Vec<Listed>) -> io::Result<Ended> {
        let began = Instant::now();
        writeln!(self.to.out, "{}", self.library.more())?;
        let (count, mut told) = (files.len(), began);
        for (i, file) in files.into_iter().enumerate() {
            if told.elapsed() >= self.to.every {
                told = Instant::now();
                (self.to.say)(&format!("{i} of {}, {} s", counted(count, "question"), began.elapsed().as_secs()));
            }
            self.one(file)?;
        }
        writeln!(self.to.out, "{}", self.counts.summary())?;
        self.to.out.flush()?;
        Ok(self.counts.ended())
    }

    fn one(&mut self, file: Listed) -> io::Result<()> {
        match file.and_then(|path| Ok((self.verdict(&path).map_err(|what| of(&path, what))?, path))) {
            Ok((verdict, path)) => {
                self.counts.add(&verdict);
                verdict.lines().iter().try_for_each(|line| writeln!(self.to.out, "{}: {line}", shown(&path)))
            }
            Err(what) => {
                self.counts.not_asked += 1;
                (self.to.say)(&what);
                Ok(())
            }
        }
    }

    /// What is said of the question in a file, or why it is not asked.
    fn verdict(&mut self, path: &Path) -> Result<Verdict, String> {
        let bytes = fs::read(path).map_err(|error| format!("reading: {error}"))?;
        let verdict = if self.args.input.questions { self.in_input(&bytes) } else { Ok(self.library.ask(&bytes)) };
        match verdict {
            Ok(Verdict::Refused(_)) | Err(_) => self.other_content(&bytes).map_or(verdict, Err),
            verdict => verdict,
        }
    }

    fn in_input(&mut self, bytes: &[u8]) -> Result<Verdict, String> {
        let (table, question) = whole_input(bytes).ok_or(CUT)?;
        if !self.library.has(table) {
            if self.other.0 != table {
                self.other = (table.to_vec(), self.library.takes(table));
            }
            self.other.1.clone()?;
        }
        Ok(self.library.ask(question))
    }

    /// What a file is where it is no question.
    fn other_content(&self, bytes: &[u8]) -> Option<String> {
        let what = match self.args.input.questions {
            _ if is_table(bytes) => "no question, but a table",
            true if !matches!(self.library.ask(bytes), Verdict::Refused(_)) => {
                "no program's input, but a question alone (without --input questions)"
            }
            false if is_input(bytes) => "no question, but a program's input (--input questions)",
            _ => return None,
        };
        Some(String::from(what))
    }
}

impl Counts {
    fn add(&mut self, verdict: &Verdict) {
        match verdict {
            Verdict::Undisturbed(_) => self.undisturbed += 1,
            Verdict::Refused(_) => self.refused += 1,
            Verdict::Failed { answers, .. } => {
                self.failed += 1;
                self.differ += answers.is_some() as usize;
            }
        }
    }

    fn summary(&self) -> String {
        let Counts { undisturbed, refused, failed, differ, not_asked } = self;
        let asked = counted(undisturbed + refused + failed, "question");
        let perhaps = if *refused > 0 { "; what is refused may be no question" } else { "" };
        let beside = if *not_asked > 0 { format!("; {not_asked} not asked") } else { String::new() };
        format!(
            "{asked}: {undisturbed} undisturbed, {refused} refused, {failed} where the condition fails ({differ} with \
             another answer){perhaps}{beside}"
        )
    }

    fn ended(&self) -> Ended {
        match (self.not_asked, self.failed) {
            (0, 0) => Ended::Holds,
            (0, _) => Ended::Fails,
            _ => Ended::NotAsked,
        }
    }
}
