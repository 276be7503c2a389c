//! One case: what the yardsticks say for some buffer lengths, and what the proved judge does.

use crate::yardstick::Sayings;
use aura_judge::raw::{self, Fields, ANSWER_SIZE};
use reading::gen::Case;
use reading::hex::hex;
use reading::{print_answer, Answer, Said, Yardstick};

/// What lies in and around the lent slices before a call.
pub const POISON: u8 = 0xa5;

/// Bytes before and behind a lent slice, which a call must leave alone.
pub(crate) const GUARD: usize = 64;

/// The longest buffer that is lent.
const LONGEST: usize = 66_000;

/// What a call of the proved judge left behind: the number that it answered, the answer slice, the lent buffer.
#[derive(PartialEq, Eq)]
pub struct Given<'a> {
    pub number: u8,
    pub answer: &'a [u8],
    pub buffer: &'a [u8],
}

/// The buffer lengths at which number 12 begins and ends, by the first yardstick that says something.
pub fn limits(sayings: &Sayings) -> Vec<usize> {
    sayings.each().next().map_or(Vec::new(), |(_, said)| limits_of(said))
}

/// The buffer lengths at which number 12 begins and ends.
pub fn limits_of(said: &Said) -> Vec<usize> {
    match said {
        Said::Judged { diagnostics, .. } if !diagnostics.is_empty() => {
            let need = 5 * diagnostics.len();
            [need - 1, need, need + 4].into_iter().filter(|n| *n <= LONGEST).collect()
        }
        _ => Vec::new(),
    }
}

/// Compares every byte that a call left with what each yardstick says; answers the number. The error says what
/// differs. `expected` is room as long as the lent buffer.
pub fn agrees(sayings: &Sayings, given: &Given, expected: &mut [u8]) -> Result<u8, String> {
    let Given { number, answer: bytes, buffer } = given;
    let (answer, rest) = read(bytes);
    for (yardstick, said) in sayings.each() {
        let right = (yardstick.answer)(said, expected);
        if *number == right.number && answer == right && rest.iter().all(|b| *b == 0) && *buffer == &*expected {
            continue;
        }
        let at = buffer.iter().zip(&*expected).position(|(a, b)| a != b);
        let at = at.map_or(String::from("none"), |i| format!("{}: {} for {}", i, buffer[i], expected[i]));
        return Err(format!(
            "number returned {}, first buffer byte that differs {}\nproved answer {}\nanswer by {} {}",
            number,
            at,
            shown(&answer, buffer),
            yardstick.name,
            shown(&right, expected)
        ));
    }
    Ok(*number)
}

/// Room for the slices that a call is lent, kept from call to call.
pub struct Lent {
    buffer: Vec<u8>,
    answer: Vec<u8>,
}

impl Default for Lent {
    fn default() -> Lent {
        Lent { buffer: vec![POISON; LONGEST + 2 * GUARD], answer: Vec::new() }
    }
}

impl Lent {
    /// Calls the proved judge on poisoned slices. The error says that bytes outside of them were written.
    pub fn call(&mut self, table: &[u8], question: &[u8], length: usize) -> Result<Given<'_>, String> {
        let buffer = &mut self.buffer[..length + 2 * GUARD];
        buffer.fill(POISON);
        self.answer.clear();
        self.answer.resize(ANSWER_SIZE + 2 * GUARD + length % 3, POISON);
        let end = self.answer.len() - GUARD;
        let answer = &mut self.answer[GUARD..end];
        let number = raw::judge(table, question, &mut buffer[GUARD..GUARD + length], answer);
        let around = [&buffer[..GUARD], &buffer[GUARD + length..], &self.answer[..GUARD], &self.answer[end..]];
        if !untouched(&around) {
            return Err(String::from("bytes outside the lent slices were written"));
        }
        Ok(Given { number, answer: &self.answer[GUARD..end], buffer: &self.buffer[GUARD..GUARD + length] })
    }
}

/// Room for a case, kept from case to case.
pub struct Space {
    lent: Lent,
    expected: Vec<u8>,
}

/// How a case came out: every byte agrees.
#[derive(Debug, Clone, PartialEq, Eq)]
pub struct Outcome {
    /// The number that the case's own buffer length draws.
    pub number: u8,
    /// How many calls were compared.
    pub calls: u64,
    /// Per yardstick whether it says something of this case.
    pub speaks: Vec<bool>,
}

impl Default for Space {
    fn default() -> Space {
        Space { lent: Lent::default(), expected: vec![0; LONGEST] }
    }
}

impl Space {
    /// Compares a case at its own buffer length and, where `around` is set, at those around number 12. The error says
    /// what differs.
    pub fn compare(&mut self, yardsticks: &[Yardstick], case: &Case, around: bool) -> Result<Outcome, String> {
        let sayings = Sayings::of(yardsticks, &case.table, &case.question);
        let number = self.compare_at(case, &sayings, case.buffer)?;
        let lengths = if around { limits(&sayings) } else { Vec::new() };
        for length in &lengths {
            self.compare_at(case, &sayings, *length)?;
        }
        let speaks = (0..yardsticks.len()).map(|place| sayings.speaks(place)).collect();
        Ok(Outcome { number, calls: 1 + lengths.len() as u64, speaks })
    }

    fn compare_at(&mut self, case: &Case, sayings: &Sayings, length: usize) -> Result<u8, String> {
        let given = self.lent.call(&case.table, &case.question, length);
        let agreed = given.and_then(|given| agrees(sayings, &given, &mut self.expected[..length]));
        agreed.map_err(|what| described(case, length, &what))
    }
}

/// Whether these bytes are as they were before a call.
pub(crate) fn untouched(around: &[&[u8]]) -> bool {
    around.iter().all(|part| part.iter().all(|b| *b == POISON))
}

/// What differs, with the case's bytes before it.
pub fn described(case: &Case, length: usize, what: &str) -> String {
    format!("table {}\nquestion {}\nbuffer of {} bytes\n{}", hex(&case.table), hex(&case.question), length, what)
}

/// The answer that the first 268 bytes say, and the bytes behind them.
pub fn read(bytes: &[u8]) -> (Answer, &[u8]) {
    let (answer, rest) = bytes.split_first_chunk::<ANSWER_SIZE>().expect("an answer has 268 bytes");
    let Fields { number, pass, len, count, ty } = Fields::of(answer);
    (Answer { number, pass, ty: *ty, len: len as usize, count: count as usize }, rest)
}

/// An answer as the program prints it, where its numbers allow that.
pub(crate) fn shown(answer: &Answer, buffer: &[u8]) -> String {
    if answer.len > answer.ty.len() || answer.count > buffer.len() / 5 {
        return format!("{:?}", answer);
    }
    let behind = hex(&answer.ty[answer.len..]);
    format!("{}type bytes behind the length {}", print_answer(answer, buffer), behind)
}
