//! A wrong judge in the proved one's place, to try that a run can fail. AURA_FUZZ_FAULT says which.

use aura_judge::raw;
use compare::load::Asked;
use reading::bytes::{class_places, without_interfaces, without_parents};
use reading::name::NONE;
use reading::places::with_sizes;
use reading::words::table::record_lengths;
use reading::Written;
use std::arch::asm;
use std::hint::black_box;

#[derive(Debug, Clone, Copy, PartialEq, Eq)]
pub enum Fault {
    None,
    /// One bit of the number that is returned.
    Number,
    /// One bit of the answer's type.
    Answer,
    /// One bit of the buffer's last byte.
    Buffer,
    /// The pass mark, where the first diagnostic is of this kind.
    Diagnostic(u8),
    /// A block is taken from the heap and not given back.
    Leak,
    /// One bit of the question's last byte.
    Question,
    /// `memset` of one byte more than the buffer has, as the proved judge calls it.
    SetLong,
    /// `memcpy` from one byte more than the table has.
    CopyLong,
    /// One byte behind the buffer is written by an instruction that no sanitizer knows of.
    WriteBehind,
    /// One byte behind the table is read so.
    ReadBehind,
    /// One byte before the question is read so.
    ReadBefore,
    /// One bit of the last byte of a test load's buffer.
    Load,
    /// No class goes where its superclass is expected.
    Subclass,
    /// No class goes where one of its interfaces is expected.
    Interface,
    /// Of the interfaces of a class the second is forgotten.
    SecondInterface,
    /// A superclass or an interface may have a later record.
    Late,
    /// The last two arguments of a call change their types, where both are leaves of one byte.
    Arguments,
    /// The size of a large Array loses its upper four bytes.
    Sizes,
}

const NAMES: [(&str, Fault); 19] = [
    ("number", Fault::Number),
    ("answer", Fault::Answer),
    ("buffer", Fault::Buffer),
    ("tie", Fault::Diagnostic(19)),
    ("dereference", Fault::Diagnostic(12)),
    ("leak", Fault::Leak),
    ("question", Fault::Question),
    ("set-long", Fault::SetLong),
    ("copy-long", Fault::CopyLong),
    ("write-behind", Fault::WriteBehind),
    ("read-behind", Fault::ReadBehind),
    ("read-before", Fault::ReadBefore),
    ("load", Fault::Load),
    ("subclass", Fault::Subclass),
    ("interface", Fault::Interface),
    ("second-interface", Fault::SecondInterface),
    ("late", Fault::Late),
    ("arguments", Fault::Arguments),
    ("sizes", Fault::Sizes),
];

extern "C" {
    fn memset(to: *mut u8, value: i32, count: usize) -> *mut u8;
    fn memcpy(to: *mut u8, from: *const u8, count: usize) -> *mut u8;
}

type SetBytes = unsafe extern "C" fn(*mut u8, i32, usize) -> *mut u8;
type CopyBytes = unsafe extern "C" fn(*mut u8, *const u8, usize) -> *mut u8;

impl Fault {
    pub fn wanted() -> Fault {
        let Ok(wanted) = std::env::var("AURA_FUZZ_FAULT") else { return Fault::None };
        let found = NAMES.iter().find(|(name, _)| *name == wanted);
        let (name, fault) = found.unwrap_or_else(|| panic!("AURA_FUZZ_FAULT is {}, which is no fault", wanted));
        eprintln!("fuzz: a wrong judge is run: {}", name);
        *fault
    }

    /// The proved judge's answer, made wrong.
    pub fn judge(self, table: &[u8], question: &[u8], buffer: &mut [u8], answer: &mut [u8]) -> u8 {
        let number = raw::judge(table, question, buffer, answer);
        if let Some((table, question)) = self.instead(number, table, question) {
            return raw::judge(&table, &question, buffer, answer);
        }
        let last = buffer.len().wrapping_sub(1);
        match self {
            Fault::None | Fault::Load => {}
            Fault::Number => return number ^ 1,
            Fault::Answer => answer[12] ^= 1,
            Fault::Buffer => {
                if let Some(byte) = buffer.get_mut(last) {
                    *byte ^= 1;
                }
            }
            Fault::Diagnostic(kind) => {
                if buffer.first() == Some(&kind) {
                    answer[1] ^= 1;
                }
            }
            Fault::Leak => std::mem::forget(black_box(vec![number; 64])),
            // SAFETY: none, and that is what each of the others is for.
            _ => unsafe { self.overstep(table, question, buffer) },
        }
        number
    }

    /// The table and the question that a wrong judge answers in the place of those that it was asked.
    fn instead(self, number: u8, table: &[u8], question: &[u8]) -> Option<(Vec<u8>, Vec<u8>)> {
        let under = |table: Vec<u8>| Some((table, question.to_vec()));
        match (self, number) {
            // Superclasses count for nothing else then.
            (Fault::Subclass, 0) if only_assignability_climbs(table, question) => under(without_parents(table)),
            (Fault::Interface, 0) => under(without_interfaces(table)),
            (Fault::SecondInterface, 0) => under(without_second_interfaces(table)),
            (Fault::Late, 6) => under(without_parents(table)),
            (Fault::Arguments, 0) => match question {
                [front @ .., 0, a, 0, b] => Some((table.to_vec(), [front, &[0, *b, 0, *a]].concat())),
                _ => None,
            },
            (Fault::Sizes, 0) => Some(with_sizes(table, question, &|size| size.map(|size| size & 0xffff_ffff))),
            _ => None,
        }
    }

    /// The proved library's load, made wrong.
    pub fn load(self, asked: Asked, out: &mut [u8]) -> Written {
        let written = asked.write(out);
        if let (Fault::Load, Some(byte)) = (self, out.last_mut()) {
            *byte ^= 1;
        }
        written
    }

    /// Called by pointer, so that the compiler puts no check of its own in the place of `memset` and `memcpy`: the proved
    /// judge's calls have none either.
    unsafe fn overstep(self, table: &[u8], question: &[u8], buffer: &mut [u8]) {
        if table.is_empty() || question.is_empty() {
            return;
        }
        let mut copy = vec![0; table.len() + 1];
        let (behind_table, behind_buffer) = (table.as_ptr_range().end, buffer.as_mut_ptr_range().end);
        match self {
            Fault::Question => {
                let last = question.as_ptr_range().end.sub(1);
                asm!("xor byte ptr [{}], 1", in(reg) last);
            }
            Fault::SetLong => {
                black_box(memset as SetBytes)(buffer.as_mut_ptr(), 0, buffer.len() + 1);
            }
            Fault::CopyLong => {
                black_box(memcpy as CopyBytes)(copy.as_mut_ptr(), table.as_ptr(), table.len() + 1);
            }
            Fault::WriteBehind => asm!("mov byte ptr [{}], 0", in(reg) behind_buffer),
            Fault::ReadBehind => asm!("mov {}, byte ptr [{}]", out(reg_byte) _, in(reg) behind_table),
            Fault::ReadBefore => asm!("mov {}, byte ptr [{}]", out(reg_byte) _, in(reg) question.as_ptr().sub(1)),
            _ => {}
        }
    }
}

/// The same table with no second interface in any class record.
fn without_second_interfaces(table: &[u8]) -> Vec<u8> {
    let mut bytes = table.to_vec();
    for class in class_places(table) {
        bytes[class + 7..class + 9].fill(0xff);
    }
    bytes
}

/// Whether protected access and operator methods have nothing to climb from: the question has no current type, and the
/// table no operator set.
fn only_assignability_climbs(table: &[u8], question: &[u8]) -> bool {
    let mut at = 0;
    let mut operator_sets = false;
    for len in record_lengths(table) {
        operator_sets |= table[at] == 3;
        at += len;
    }
    !operator_sets && question.starts_with(&NONE.to_le_bytes())
}
