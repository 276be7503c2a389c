//! A table's records and the numbers 1 to 7. "A table has at most 60,000 bytes, perhaps none; record kinds
//! never fall."

use super::types::{read_type, End};
use crate::name::{BUILT_IN, NONE};
use std::collections::{HashMap, HashSet};

pub const LIMIT: usize = 60_000;

/// Which fields a class record has.
#[derive(Debug, Clone, Copy, PartialEq, Eq)]
pub enum ClassForm {
    /// Document 01: "2 class: name, superclass, package, flag (bit 0: in `types`)": 8 bytes.
    Older,
    /// Document 02, order 6: "The class record gains two interface ids behind its superclass, 65,535 for none": 12 bytes.
    Now,
}

/// Why a table is refused.
#[derive(Debug, Clone, Copy, PartialEq, Eq)]
pub struct Fault {
    pub number: u8,
    /// How many records stand before the one that draws the number; none where the table is too long.
    pub record: Option<usize>,
}

/// "In owner, superclass and package fields 65,535 means none."
pub fn or_none(id: u16) -> Option<u16> {
    (id != NONE).then_some(id)
}

/// "5 key repeated (name bytes, built-ins included; class; owner and name; ..)", each within its kind.
#[derive(Debug, Clone, PartialEq, Eq, Hash)]
enum Key {
    Name(Vec<u8>),
    Class(u8, u16),
    Member(u8, u16, u16),
}

/// One record as far as it can be read.
#[derive(Debug, Clone, Default)]
struct Record {
    kind: u8,
    len: usize,
    /// "2 malformed or cut record".
    broken: bool,
    /// A type of the record has no end within 192 bytes.
    endless: bool,
    /// Error stands in a type.
    error: bool,
    /// The ids that must be defined.
    ids: Vec<u16>,
    /// None for functions, which may repeat.
    key: Option<Key>,
    /// The parameters' names.
    parameters: Vec<u16>,
    /// A class's superclass and its two interfaces.
    parents: [Option<u16>; 3],
}

/// Reads the fields of a record one after another. "Ids have 2 bytes; flags, visibilities, counts and name
/// lengths 1."
struct Reader<'a> {
    bytes: &'a [u8],
    at: usize,
    form: ClassForm,
    record: Record,
}

impl Reader<'_> {
    fn byte(&mut self) -> u8 {
        let value = self.bytes.get(self.at).copied();
        self.at += 1;
        self.record.broken |= value.is_none();
        value.unwrap_or(0)
    }

    fn word(&mut self) -> u16 {
        u16::from_le_bytes([self.byte(), self.byte()])
    }

    fn id(&mut self) -> u16 {
        let id = self.word();
        self.record.ids.push(id);
        id
    }

    fn id_or_none(&mut self) -> Option<u16> {
        let id = or_none(self.word());
        self.record.ids.extend(id);
        id
    }

    fn demand(&mut self, well_formed: bool) {
        self.record.broken |= !well_formed;
    }

    /// "Undefined flag and mask bits are 0": a byte whose highest value is this.
    fn byte_to(&mut self, highest: u8) -> u8 {
        let value = self.byte();
        self.demand(value <= highest);
        value
    }

    /// A type; false where nothing behind it can be read.
    fn ty(&mut self) -> bool {
        if self.record.broken {
            return false;
        }
        let read = read_type(&self.bytes[self.at..]);
        self.record.ids.extend(read.ids);
        self.record.error |= read.error;
        match read.end {
            End::Whole(len) => {
                self.at += len;
                return true;
            }
            End::Malformed | End::Cut => self.record.broken = true,
            End::Endless => self.record.endless = true,
        }
        false
    }

    /// "1 name: length 1 to 24, 24 bytes zero-padded, each 33 to 126 but not 46."
    fn name(&mut self) {
        let len = self.byte() as usize;
        let mut name: Vec<u8> = (0..24).map(|_| self.byte()).collect();
        self.demand((1..=24).contains(&len));
        if !self.record.broken {
            self.demand(name[len..].iter().all(|&c| c == 0));
            name.truncate(len);
            self.demand(name.iter().all(|&c| (33..=126).contains(&c) && c != 46));
        }
        self.record.key = Some(Key::Name(name));
    }

    /// "4 function: owner, name, visibility (0 Public, Protected, Internal, 3 Private), flag (bit 0 builtin), count
    /// to 16; result type; per parameter name, flag (bit 0 default, bit 1 vararg), type."
    fn function(&mut self) {
        self.id_or_none();
        self.id();
        self.byte_to(3);
        self.byte_to(1);
        let count = self.byte_to(16);
        let mut more = self.ty();
        for _ in 0..count {
            if !more {
                return;
            }
            let name = self.id();
            self.record.parameters.push(name);
            self.byte_to(3);
            more = self.ty();
        }
    }

    /// A class, with its interfaces where the form has them.
    fn class(&mut self) {
        let class = self.id();
        self.record.parents[0] = self.id_or_none();
        if self.form == ClassForm::Now {
            self.record.parents[1] = self.id_or_none();
            self.record.parents[2] = self.id_or_none();
        }
        self.id_or_none();
        self.byte_to(1);
        self.record.key = Some(Key::Class(2, class));
    }

    /// The front of kinds 5 to 8: owner and name. "Only kinds 4 and 7 may have no owner; in kinds 5, 6 and 8 an
    /// owner of 65,535 is an undefined id."
    fn member(&mut self, kind: u8) {
        let owner = if kind == 7 { self.id_or_none().unwrap_or(NONE) } else { self.id() };
        let name = self.id();
        self.record.key = Some(Key::Member(kind, owner, name));
    }

    fn fields(&mut self, kind: u8) {
        match kind {
            1 => self.name(),
            2 => self.class(),
            // "3 operator set: class, 2-byte mask, bit 0 plus to bit 10 ge."
            3 => {
                let class = self.id();
                let mask = self.word();
                self.demand(mask < 1 << 11);
                self.record.key = Some(Key::Class(kind, class));
            }
            4 => self.function(),
            // "5 field: owner, name, type. 6 member visibility: owner, name, visibility. 7 suspend function: owner,
            // name. 8 enum variant: owner, name."
            5 => {
                self.member(kind);
                self.ty();
            }
            6 => {
                self.member(kind);
                self.byte_to(3);
            }
            7 | 8 => self.member(kind),
            _ => self.record.broken = true,
        }
    }
}

fn read_record(bytes: &[u8], form: ClassForm) -> Record {
    let kind = bytes[0];
    let mut reader = Reader { bytes, at: 1, form, record: Record { kind, ..Record::default() } };
    reader.fields(kind);
    Record { len: reader.at, ..reader.record }
}

/// The records up to the first that is malformed, cut or has a type without end.
fn records(table: &[u8], form: ClassForm) -> Vec<Record> {
    let mut records = Vec::new();
    let mut at = 0;
    while at < table.len() {
        let record = read_record(&table[at..], form);
        let last = record.broken || record.endless;
        at += record.len;
        records.push(record);
        if last {
            break;
        }
    }
    records
}

/// The number of names that a table's ids may mean: the built-in ones and its own.
pub fn name_count(table: &[u8]) -> usize {
    BUILT_IN.len() + records(table, ClassForm::Now).iter().filter(|r| r.kind == 1).count()
}

/// The lengths of the records, up to the first that is malformed, cut or has a type without end.
pub fn record_lengths(table: &[u8]) -> Vec<usize> {
    record_lengths_of(table, ClassForm::Now)
}

/// The same of a table with class records of this form.
pub fn record_lengths_of(table: &[u8], form: ClassForm) -> Vec<usize> {
    records(table, form).iter().filter(|r| !r.broken && !r.endless).map(|r| r.len).collect()
}

/// The bytes of each of these records.
pub fn split(table: &[u8]) -> Vec<&[u8]> {
    let mut rest = table;
    let mut next = |length| rest.split_off(..length).expect("a record");
    record_lengths(table).into_iter().map(&mut next).collect()
}

/// 0, or the number that refuses the table.
pub fn table_number(table: &[u8]) -> u8 {
    check(table).err().unwrap_or(0)
}

/// What stands before a record.
struct Before {
    kind: u8,
    /// How many names there are, the built-in ones included. Document 02, order 3: "keep the number of names as a running
    /// value from record to record".
    names: usize,
    keys: HashSet<Key>,
}

/// The number of names of an accepted table, or the number that refuses it.
pub fn check(table: &[u8]) -> Result<usize, u8> {
    check_of(table, ClassForm::Now).map_err(|fault| fault.number)
}

/// The number of names of an accepted table with class records of this form, or why it is refused: "lengths before
/// contents; then the first faulty record .., lowest number within it".
pub fn check_of(table: &[u8], form: ClassForm) -> Result<usize, Fault> {
    if table.len() > LIMIT {
        return Err(Fault { number: 1, record: None });
    }
    let records = records(table, form);
    let first_class = first_classes(&records);
    let built_in = BUILT_IN.iter().map(|n| Key::Name(n.as_bytes().to_vec()));
    let mut before = Before { kind: 0, names: BUILT_IN.len(), keys: built_in.collect() };
    for (i, record) in records.iter().enumerate() {
        let late = |parent: &u16| first_class.get(parent).is_some_and(|first| *first >= i);
        let parent_late = record.parents.iter().flatten().any(late);
        record_number(record, &mut before, parent_late).map_err(|number| Fault { number, record: Some(i) })?;
    }
    Ok(before.names)
}

/// The place of each class's first record.
fn first_classes(records: &[Record]) -> HashMap<u16, usize> {
    let mut first = HashMap::new();
    for (i, record) in records.iter().enumerate() {
        if let (Some(Key::Class(2, class)), false) = (&record.key, record.broken) {
            first.entry(*class).or_insert(i);
        }
    }
    first
}

/// "2 malformed or cut record; 3 kind falls; 4 undefined id; 5 key repeated (..; a parameter's name within one
/// function; ..); 6 a superclass with a record, but not an earlier one; 7 Error in a type, or no end within 192
/// bytes." Document 02, order 3: "An id that only a later name record would define is undefined". Order 6: "an interface
/// with a record needs it earlier, else number 6, and undefined ones get 4".
fn record_number(record: &Record, before: &mut Before, parent_late: bool) -> Result<(), u8> {
    if record.broken {
        return Err(2);
    }
    if record.kind < before.kind {
        return Err(3);
    }
    if record.ids.iter().any(|&id| id as usize >= before.names) {
        return Err(4);
    }
    let names = &record.parameters;
    let repeated = (1..names.len()).any(|i| names[..i].contains(&names[i]));
    if repeated || record.key.clone().is_some_and(|key| !before.keys.insert(key)) {
        return Err(5);
    }
    if parent_late {
        return Err(6);
    }
    if record.error || record.endless {
        return Err(7);
    }
    before.kind = record.kind;
    before.names += (record.kind == 1) as usize;
    Ok(())
}
