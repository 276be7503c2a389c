//! The documents' words, read a second time: each module quotes the sentences that it stands for, document 01's where
//! it names no other. Where document 01 names a method of the Rust and says no more, the method's own text is what is
//! read.
//!
//! Types are their bytes. The modules name each other by `super`, so that a changed copy of this folder
//! is a reading of its own (wrong/).

pub mod access;
pub mod assign;
pub mod binary;
pub mod calls;
pub mod clean;
pub mod judgement;
pub mod lent;
pub mod load;
pub mod member;
pub mod operator;
pub mod parameter;
pub mod question;
pub mod rulings;
pub mod symbols;
pub mod table;
pub mod types;
pub mod unary;
pub mod undisturbed;
pub mod written;

use crate::answer::{print_answer, Answer, Said, BUFFER};
use clean::Typing;
use judgement::Judged;
use symbols::Symbols;
use table::ClassForm;

/// The number from the table and the question alone: 0 to 11. "Table first".
pub fn refusal(table: &[u8], question: &[u8]) -> u8 {
    refusal_of(table, question, ClassForm::Now)
}

/// The same of a table with class records of this form.
fn refusal_of(table: &[u8], question: &[u8], form: ClassForm) -> u8 {
    match table::check_of(table, form) {
        Ok(names) => question::number_under(question, names),
        Err(fault) => fault.number,
    }
}

/// The judgement of a question under a table, and its typing where there is one; or the number of a refusal.
pub fn judge(table: &[u8], question: &[u8]) -> Result<(Judged, Option<Typing>), u8> {
    judge_of(table, question, ClassForm::Now)
}

fn judge_of(table: &[u8], question: &[u8], form: ClassForm) -> Result<(Judged, Option<Typing>), u8> {
    match refusal_of(table, question, form) {
        0 => Ok(judge_under(&Symbols::of_form(table, form), question)),
        number => Err(number),
    }
}

/// The same of an accepted question, with the lookups of an accepted table.
fn judge_under(symbols: &Symbols, question: &[u8]) -> (Judged, Option<Typing>) {
    let question = question::read(question);
    (judgement::of(symbols, &question), clean::typing(symbols, &question))
}

/// What the words say; the pass mark is "1 exactly when a typing exists".
pub fn said(table: &[u8], question: &[u8]) -> Said {
    said_of(table, question, ClassForm::Now)
}

/// What they say of a table with class records of this form.
pub fn said_of(table: &[u8], question: &[u8], form: ClassForm) -> Said {
    judge_of(table, question, form).map_or_else(Said::Refused, said_when_judged)
}

/// What they say of an accepted question, with the lookups of an accepted table.
pub fn said_under(symbols: &Symbols, question: &[u8]) -> Said {
    said_when_judged(judge_under(symbols, question))
}

fn said_when_judged((judged, typing): (Judged, Option<Typing>)) -> Said {
    Said::Judged { ty: judged.ty, passed: typing.is_some(), diagnostics: judged.reports }
}

/// The answer; the whole buffer is written.
pub fn answer(table: &[u8], question: &[u8], buffer: &mut [u8]) -> Answer {
    lent::answer(&said(table, question), buffer)
}

/// What the program prints.
pub fn printed(table: &[u8], question: &[u8]) -> String {
    let mut buffer = vec![0; BUFFER];
    let answer = answer(table, question, &mut buffer);
    print_answer(&answer, &buffer)
}
