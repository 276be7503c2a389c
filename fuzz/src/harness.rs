//! One input: document 01's program's, so that what is found can be given to the program as it is.

use crate::counts;
use crate::fault::Fault;
use crate::pages::{At, Pages};
use aura_judge::raw::ANSWER_SIZE;
use compare::case::{agrees, described, limits, Given, POISON};
use compare::load::Asked;
use compare::yardstick::{Sayings, ALL};
use reading::gen::Case;
use reading::hex::hex;
use reading::{split_input, BUFFER};
use std::cell::RefCell;
use std::ffi::c_int;

/// The longest input that is made: a table of 65,535 bytes, and a question one byte over its limit.
pub const LONGEST: usize = 2 + 65_535 + 16_385;

struct Harness {
    table: Pages,
    question: Pages,
    buffer: Pages,
    answer: Pages,
    expected: Vec<u8>,
    fault: Fault,
}

thread_local! {
    static HARNESS: RefCell<Harness> = RefCell::new(Harness::new());
}

/// Aborts where the two differ, with the input on standard error.
#[no_mangle]
pub extern "C" fn LLVMFuzzerTestOneInput(data: *const u8, size: usize) -> c_int {
    let input = match size {
        0 => &[],
        // SAFETY: libFuzzer's input.
        _ => unsafe { std::slice::from_raw_parts(data, size) },
    };
    let outcome = HARNESS.with(|harness| harness.borrow_mut().one(input));
    if let Err(what) = outcome {
        eprintln!("fuzz: DIFFERENCE\ninput {}\n{}", hex(input), what);
        counts::print_totals();
        std::process::abort();
    }
    0
}

impl Harness {
    fn new() -> Harness {
        Harness {
            table: Pages::new(LONGEST),
            question: Pages::new(LONGEST),
            buffer: Pages::new(BUFFER + 1),
            answer: Pages::new(2 * ANSWER_SIZE),
            expected: vec![0; BUFFER + 1],
            fault: Fault::wanted(),
        }
    }

    fn one(&mut self, input: &[u8]) -> Result<(), String> {
        let (table, question) = split_input(input);
        // Copies, so that each is a heap block of just its length.
        let case = Case { table: table.to_vec(), question: question.to_vec(), buffer: BUFFER };
        let sayings = Sayings::of(ALL, table, question);
        self.on_heap(&case, &sayings)?;
        let mut lengths = limits(&sayings);
        // More diagnostics than the program's buffer holds drew 12 above.
        lengths.retain(|length| *length <= BUFFER);
        if lengths.is_empty() {
            lengths.push(input.len() % 11);
        }
        for (i, length) in lengths.into_iter().enumerate() {
            let at = [At::End, At::Start][(i + input.len()) % 2];
            self.on_pages(&case, &sayings, length, at).map_err(|what| described(&case, length, &what))?;
        }
        if case.table != table || case.question != question {
            return Err(String::from("the table or the question was written"));
        }
        self.load(input)?;
        // The Rust is the first of the yardsticks.
        counts::input(sayings.speaks(0));
        Ok(())
    }

    /// A test load whose start number, node count and buffer length are the input's last bytes. The buffer touches a
    /// forbidden page.
    fn load(&mut self, input: &[u8]) -> Result<(), String> {
        let Some((_, [start @ .., nodes, length])) = input.split_last_chunk::<6>() else { return Ok(()) };
        let asked = Asked { start: u32::from_le_bytes(*start), nodes: *nodes as usize % 70 };
        let (length, at) = (*length as usize, [At::End, At::Start][input.len() % 2]);
        let out = self.buffer.lend(length, at);
        let given = self.fault.load(asked, out);
        asked.agrees(ALL, given, out, &mut self.expected[..length])?;
        if !self.buffer.untouched(length, at) {
            return Err(asked.described(length, "bytes outside the lent buffer were written"));
        }
        counts::load();
        Ok(())
    }

    /// The program's buffer; the four slices are heap blocks of just their lengths.
    fn on_heap(&mut self, case: &Case, sayings: &Sayings) -> Result<(), String> {
        let mut buffer = vec![POISON; case.buffer];
        let mut answer = vec![POISON; ANSWER_SIZE];
        let number = self.fault.judge(&case.table, &case.question, &mut buffer, &mut answer);
        let given = Given { number, answer: &answer, buffer: &buffer };
        let compared = compared(sayings, &given, &mut self.expected);
        compared.map_err(|what| described(case, case.buffer, &what))
    }

    /// Each of the four slices touches a forbidden page.
    fn on_pages(&mut self, case: &Case, sayings: &Sayings, length: usize, at: At) -> Result<(), String> {
        // Longer answers sometimes: the bytes behind the answer are to be zero.
        let room = ANSWER_SIZE + length % 3;
        let table = self.table.copy(&case.table, at);
        let question = self.question.copy(&case.question, at);
        let (buffer, answer) = (self.buffer.lend(length, at), self.answer.lend(room, at));
        let number = self.fault.judge(table, question, buffer, answer);
        compared(sayings, &Given { number, answer, buffer }, &mut self.expected)?;
        if table != case.table || question != case.question {
            return Err(String::from("the table or the question was written"));
        }
        let around = [
            self.table.untouched(case.table.len(), at),
            self.question.untouched(case.question.len(), at),
            self.buffer.untouched(length, at),
            self.answer.untouched(room, at),
        ];
        if around.contains(&false) {
            return Err(String::from("bytes outside the lent slices were written"));
        }
        Ok(())
    }
}

fn compared(sayings: &Sayings, given: &Given, expected: &mut [u8]) -> Result<(), String> {
    counts::call(agrees(sayings, given, &mut expected[..given.buffer.len()])?);
    Ok(())
}
