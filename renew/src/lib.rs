//! Writes a table of the older form anew.
//!
//! In the older form a class record has 8 bytes: kind, name, superclass, package, flag. Document 02, order 6: "The class
//! record gains two interface ids behind its superclass, 65,535 for none"; "We write older tables anew with 65,535; one that
//! thereby passes 60,000 bytes draws number 1."
//!
//! ```
//! use renew::{renew, NotRenewed};
//!
//! // A class of the name Set, without superclass and package, in `types`.
//! let older = [2, 5, 0, 255, 255, 255, 255, 1];
//! let renewed = renew(&older)?;
//! assert_eq!(renewed.table, [2, 5, 0, 255, 255, 255, 255, 255, 255, 255, 255, 1]);
//! assert!(!renewed.is_too_long());
//!
//! let NotRenewed::NotOlder(refused) = renew(&renewed.table).unwrap_err() else { panic!() };
//! assert_eq!(refused.number, 2);
//! assert!(refused.is_of_today);
//! # Ok::<(), NotRenewed>(())
//! ```

pub mod args;
pub mod cases;
pub mod file;
mod input;
mod why;

pub use input::{renew_input, renew_older_input, RenewedInput};
pub use why::{NotOlder, NotRenewed, Place};

use reading::words::table::{check_of, record_lengths_of, ClassForm, Fault, LIMIT};

const CLASS: u8 = 2;

/// The bytes of a class record up to the end of its superclass, in both forms.
const TO_INTERFACES: usize = 5;

/// Both interfaces, none of them there.
const NO_INTERFACES: [u8; 4] = [255; 4];

/// A table with 65,535 in both interface places of each class record.
#[derive(Debug, Clone, PartialEq, Eq)]
pub struct Renewed {
    pub table: Vec<u8>,
    /// How many class records it has, each of them 4 bytes longer than it was.
    pub classes: usize,
}

impl Renewed {
    /// Whether the judge refuses it with number 1: it has over 60,000 bytes.
    pub fn is_too_long(&self) -> bool {
        self.table.len() > LIMIT
    }
}

/// The older table anew, or why it is none. A table without a class record is the same in both forms; one with class records
/// that both forms accept is refused.
pub fn renew(table: &[u8]) -> Result<Renewed, NotRenewed> {
    let renewed = renew_older(table).map_err(NotRenewed::NotOlder)?;
    if renewed.classes > 0 && check_of(table, ClassForm::Now).is_ok() {
        return Err(NotRenewed::BothForms);
    }
    Ok(renewed)
}

/// The same, where a table that both forms accept is an older one.
pub fn renew_older(table: &[u8]) -> Result<Renewed, NotOlder> {
    check_of(table, ClassForm::Older).map_err(|fault| not_older(table, fault))?;
    let mut renewed = Renewed { table: Vec::with_capacity(table.len()), classes: 0 };
    let mut rest = table;
    for length in record_lengths_of(table, ClassForm::Older) {
        let (record, behind) = rest.split_at(length);
        renewed.add(record);
        rest = behind;
    }
    Ok(renewed)
}

impl Renewed {
    fn add(&mut self, record: &[u8]) {
        if record[0] != CLASS {
            self.table.extend(record);
            return;
        }
        let (front, behind) = record.split_at(TO_INTERFACES);
        self.table.extend([front, &NO_INTERFACES, behind].concat());
        self.classes += 1;
    }
}

fn not_older(table: &[u8], fault: Fault) -> NotOlder {
    let place = fault.record.map(|record| Place { record, byte: byte_of(table, record) });
    NotOlder { number: fault.number, place, is_of_today: check_of(table, ClassForm::Now).is_ok() }
}

/// Where a record of an older table begins, if all before it are whole.
fn byte_of(table: &[u8], record: usize) -> usize {
    record_lengths_of(table, ClassForm::Older).iter().take(record).sum()
}
