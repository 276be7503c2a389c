//! Generated tables in the older form, before and after they are written anew: the bytes are those of the generator's own
//! table, and the second reading gives the same number, type and diagnostics.

use crate::{renew_older, NotOlder, Renewed};
use reading::bytes::{class_places, older, without_interfaces};
use reading::gen::{mixed, Case};
use reading::hex::hex;
use reading::words::table::{record_lengths, table_number, ClassForm, LIMIT};
use reading::words::{said, said_of};
use reading::Said;

/// What writes a table anew: `renew_older`, or a wrong version of it.
pub type Tool = fn(&[u8]) -> Result<Renewed, NotOlder>;

/// How many cases went which way.
#[derive(Debug, Clone, Copy, PartialEq, Eq, Default)]
pub struct Counts {
    pub cases: u64,
    /// Tables that the older form refuses, so that nothing was written.
    pub refused: [u64; 8],
    /// Tables written anew, by whether they have class records.
    pub with_classes: u64,
    pub without_classes: u64,
    /// Of those written, how many are judged, and how many of them pass.
    pub judged: u64,
    pub passed: u64,
    /// Tables that passed 60,000 bytes.
    pub too_long: u64,
    /// Tables whose number is not that of the generator's own: `are_alike`, `number`.
    pub not_alike: u64,
}

/// The generator's table without interfaces, and the same with class records of 8 bytes.
struct Tables {
    own: Vec<u8>,
    older: Vec<u8>,
}

impl Tables {
    fn of(case: &Case) -> Tables {
        let own = without_interfaces(&case.table);
        let older = older(&own).expect("no class has an interface");
        Tables { own, older }
    }

    /// Whether the older table is the generator's with each class record shorter. Not so where a class record is cut, or stands
    /// behind another kind of record: it kept its bytes.
    fn are_alike(&self) -> bool {
        let places = class_places(&self.own);
        let behind = record_lengths(&self.own).into_iter().scan(0, |at, length| {
            *at += length;
            Some(*at)
        });
        [0].into_iter().chain(behind).all(|at| self.own.get(at) != Some(&2) || places.contains(&at))
    }

    /// The number of the generator's own table, if the older one has to have the same: none where it is 1 for the bytes that
    /// the older one does not have.
    fn number(&self) -> Option<u8> {
        let has_more = self.own.len() > LIMIT && self.older.len() <= LIMIT;
        (!has_more).then(|| table_number(&self.own))
    }
}

impl Counts {
    /// Takes the table of a case into the older form and asks its question before and after. The error is a difference.
    pub fn add(&mut self, case: &Case, tool: Tool) -> Result<(), String> {
        let tables = Tables::of(case);
        self.cases += 1;
        self.compare(&tables, &case.question, tool)
            .map_err(|what| format!("{what}\ntable {}\nquestion {}", hex(&tables.older), hex(&case.question)))
    }

    fn compare(&mut self, tables: &Tables, question: &[u8], tool: Tool) -> Result<(), String> {
        let (renewed, are_alike) = (tool(&tables.older), tables.are_alike());
        let expected = tables.number().filter(|_| are_alike);
        self.not_alike += expected.is_none() as u64;
        let number = renewed.as_ref().map_or_else(|why| why.number, |_| 0);
        self.refused[number as usize] += (number > 0) as u64;
        if expected.is_some_and(|expected| number != expected) {
            return Err(format!("number {number}, but the generator's own table has {expected:?}"));
        }
        let Ok(renewed) = renewed else { return Ok(()) };
        if are_alike && renewed.table != tables.own {
            return Err(format!("not the generator's own table, but {}", hex(&renewed.table)));
        }
        self.written(&renewed, &tables.older, question)
    }

    fn written(&mut self, renewed: &Renewed, table: &[u8], question: &[u8]) -> Result<(), String> {
        let (now, before) = (said(&renewed.table, question), said_of(table, question, ClassForm::Older));
        self.with_classes += (renewed.classes > 0) as u64;
        self.without_classes += (renewed.classes == 0) as u64;
        if older(&renewed.table).as_deref() != Some(table) {
            return Err(String::from("more than the interfaces is new"));
        }
        if renewed.is_too_long() {
            self.too_long += 1;
            return same(&now, &Said::Refused(1));
        }
        if let Said::Judged { passed, .. } = before {
            self.judged += 1;
            self.passed += passed as u64;
        }
        same(&now, &before)
    }
}

fn same(now: &Said, before: &Said) -> Result<(), String> {
    if now != before {
        return Err(format!("before {before:?}, now {now:?}"));
    }
    Ok(())
}

/// The mixed cases of a seed from one index up to another; `shown` is told how far they are, every 50,000 cases.
pub fn run(seed: u64, from: u64, to: u64, shown: impl Fn(u64)) -> Result<Counts, String> {
    let mut counts = Counts::default();
    for index in from..to {
        counts.add(&mixed(seed, index), renew_older).map_err(|what| format!("seed {seed}, index {index}: {what}"))?;
        if counts.cases % 50_000 == 0 {
            shown(counts.cases);
        }
    }
    Ok(counts)
}
