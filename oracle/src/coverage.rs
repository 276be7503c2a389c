//! How often each refusal number, operator, node kind, diagnostic and ruling occurs in generated cases.

use crate::answer::{Outside, Run};
use reading::gen::{self, Case, PROFILES};
use reading::hex::hex;
use reading::words::{self, clean::Typing, judgement::Judged, lent};
use reading::Said;
use std::collections::HashMap;

/// What is counted.
#[derive(Debug, Clone, Copy, PartialEq, Eq, Hash, PartialOrd, Ord)]
pub enum Item {
    Number(u8),
    NodeKind(u8),
    Binary(u8),
    Unary(u8),
    Diagnostic(u8, u16),
    Ruling(&'static str),
    Passed,
    /// Compared with the Rust.
    Inside,
    Outside(Outside),
}

impl std::fmt::Display for Item {
    fn fmt(&self, f: &mut std::fmt::Formatter<'_>) -> std::fmt::Result {
        match self {
            Item::Number(n) => write!(f, "number {}", n),
            Item::NodeKind(k) => write!(f, "node kind {}", k),
            Item::Binary(op) => write!(f, "binary operator {}", op),
            Item::Unary(op) => write!(f, "unary operator {}", op),
            Item::Diagnostic(kind, number) => write!(f, "diagnostic {} with {}", kind, number),
            Item::Ruling(what) => write!(f, "ruling: {}", what),
            Item::Passed => write!(f, "passed"),
            Item::Inside => write!(f, "judged and compared with the Rust"),
            Item::Outside(why) => write!(f, "outside the compared domain: {}", outside(*why)),
        }
    }
}

fn outside(why: Outside) -> &'static str {
    match why {
        Outside::Superclass => "a superclass",
        Outside::Interface => "an interface",
        Outside::Spelling => "a base spells an owner",
        Outside::VarargNotLast => "a vararg that is not last",
        Outside::UnnamedArguments => "two unnamed arguments",
        Outside::NamedNoMatch => "a named argument and no match",
        Outside::LargeArray => "an Array of kind 22",
    }
}

#[derive(Debug, Default, Clone)]
pub struct Coverage {
    pub counts: HashMap<Item, u64>,
    pub cases: u64,
}

/// What CI's run must meet at least `AT_LEAST` times.
pub const AT_LEAST: u64 = 100;

pub fn required() -> Vec<Item> {
    let mut items: Vec<Item> = (0..=12).map(Item::Number).collect();
    items.extend((0..=6).map(Item::NodeKind));
    items.extend((0..23).map(Item::Binary));
    items.extend((0..7).map(Item::Unary));
    for kind in 1..=23 {
        let numbers = match kind {
            6 => 1..=2,
            15 => 0..=16,
            16 | 17 => 1..=16,
            19 => 2..=5,
            20 => 1..=3,
            _ => 0..=0,
        };
        items.extend(numbers.map(|n| Item::Diagnostic(kind, n)));
    }
    items.extend(RULINGS.map(Item::Ruling));
    items.extend([Item::Passed, Item::Inside]);
    items.extend(Outside::ALL.map(Item::Outside));
    items
}

pub const RULINGS: [&str; 42] = [
    "an exact match",
    "an accepted match",
    "a type variable accepted",
    "a vararg accepted",
    "builtins dropped out",
    "none fits",
    "none fits, all builtin",
    "no match",
    "a tie",
    "one fits and matches",
    "one fits, an unknown name alone",
    "one fits, with mismatches",
    "one wins",
    "a later overload beats a match",
    "an earlier overload beats a match",
    "a match with score 0",
    "a match with named arguments",
    "a match with a repeated name",
    "a match with parameters left out",
    "a match with more arguments than parameters",
    "a match with a vararg that is not last",
    "a match beside an unknown name",
    "a match with a second unnamed argument",
    "a match with a default taken",
    "a match with an argument left over",
    "a name behind an unnamed argument",
    "a mismatch of a named argument",
    "a mismatch of an unnamed argument",
    "a mismatch beside an unknown name",
    "a mismatch beside an argument left over",
    "a mismatch beside a subclass accepted",
    "an empty list",
    "a subclass accepted",
    "a comparison with a class above",
    "an Array of another width accepted",
    "a List accepted by a large Array",
    "an operator method of a superclass",
    "protected access from a subclass",
    "a class accepted through an interface",
    "a class accepted along two ways",
    "an operator method of an interface, not taken",
    "protected access through an interface, not given",
];

impl Coverage {
    fn count(&mut self, item: Item) {
        *self.counts.entry(item).or_insert(0) += 1;
    }

    pub fn of(&self, item: Item) -> u64 {
        self.counts.get(&item).copied().unwrap_or(0)
    }

    /// Judges a case by the words and counts what occurred; the error says where the Rust, inside its domain, says
    /// something else, or where the words contradict themselves.
    pub fn add(&mut self, case: &Case) -> Result<(), String> {
        self.cases += 1;
        let (judged, typing) = match words::judge(&case.table, &case.question) {
            Ok(said) => said,
            Err(number) => {
                self.count(Item::Number(number));
                return Ok(());
            }
        };
        let described =
            |what: String| format!("{}\ntable {}\nquestion {}", what, hex(&case.table), hex(&case.question));
        demand_three(&judged, typing.as_ref()).map_err(described)?;
        match Run::inside(&case.table, &case.question) {
            Ok(run) => {
                same(&judged, &run).map_err(described)?;
                self.count(Item::Inside);
            }
            Err(why) => self.count(Item::Outside(why)),
        }
        self.count_judged(case, &judged, typing.is_some()).map_err(described)
    }

    fn count_judged(&mut self, case: &Case, judged: &Judged, passed: bool) -> Result<(), String> {
        let question = words::question::read(&case.question);
        for ruling in &judged.rulings {
            self.count(Item::Ruling(ruling));
        }
        for (node, ty) in &judged.finished {
            if ty.len() > 192 + question.kinds.len() - node {
                return Err(format!("node {} has a type of {} bytes", node, ty.len()));
            }
            self.count(Item::NodeKind(question.kinds[*node]));
            match question.kinds[*node] {
                1 => self.count(Item::Binary(question.operators[*node])),
                2 => self.count(Item::Unary(question.operators[*node])),
                _ => {}
            }
        }
        for report in &judged.reports {
            self.count(Item::Diagnostic(report.kind, report.number));
        }
        if passed {
            self.count(Item::Passed);
        }
        let said = Said::Judged { ty: judged.ty.clone(), passed, diagnostics: judged.reports.clone() };
        let answer = lent::answer(&said, &mut vec![0; case.buffer]);
        self.count(Item::Number(answer.number));
        Ok(())
    }

    /// What is required and occurred too seldom, and what must not occur and did.
    pub fn faults(&self) -> Vec<String> {
        let seldom = required().into_iter().filter(|item| self.of(*item) < AT_LEAST);
        let mut faults: Vec<String> = seldom.map(|item| format!("{}: {} times", item, self.of(item))).collect();
        if self.of(Item::Number(13)) > 0 {
            faults.push("number 13 occurred".to_string());
        }
        faults
    }
}

/// The words' judgement and the Rust's: the type, the diagnostics, and the finished nodes in order.
fn same(judged: &Judged, run: &Run) -> Result<(), String> {
    let (reports, finished) = (run.diagnostics(), run.finished());
    if judged.reports != reports || judged.finished != finished {
        return Err(format!(
            "the words give {:?} and {:?}, the Rust {:?} and {:?}",
            judged.finished, judged.reports, finished, reports
        ));
    }
    Ok(())
}

/// Demand 3 of the words: there is a typing exactly where nothing is reported and no visited node has type Error,
/// and it gives the visited nodes the judgement's types.
fn demand_three(judged: &Judged, typing: Option<&Typing>) -> Result<(), String> {
    let types: Typing = judged.finished.iter().cloned().collect();
    let quiet = judged.reports.is_empty() && types.values().all(|ty| *ty != [reading::bytes::ERROR]);
    if quiet.then_some(&types) != typing {
        return Err(format!("the words judge {:?} and {:?}, but type {:?}", types, judged.reports, typing));
    }
    Ok(())
}

/// How many cases of the mixed profiles CI runs, beside every sweep whole.
pub const CI_MIXED: u64 = 150_000;
pub const CI_SEED: u64 = 1;

/// The run that CI does.
pub fn ci_run(mixed: u64, seed: u64) -> Result<Coverage, String> {
    let mut coverage = Coverage::default();
    for (profile, _) in PROFILES {
        for index in 0..profile.count().unwrap_or(0) {
            coverage.add(&gen::case(profile, seed, index as u64))?;
        }
    }
    for index in 0..mixed {
        coverage.add(&gen::mixed(seed, index))?;
    }
    Ok(coverage)
}
