//! What the proved library writes as a test load, beside the yardsticks' loads: the number, the length and every byte
//! of the lent buffer.

use crate::case::{untouched, GUARD, POISON};
use aura_judge::raw;
use reading::gen::load::{start, COUNTS};
use reading::hex::hex;
use reading::rng::Rng;
use reading::{Written, Yardstick};
use std::ops::Range;

/// How many start numbers CI asks for, each with every node count.
pub const CI_STARTS: u64 = 10_000;

/// The first of them are asked with every buffer length and with node counts that are refused too.
const WIDELY: u64 = 12;

/// The stream of the random start numbers, which no profile has.
const STREAM: u64 = 64;

/// The longest buffer that is lent.
const LONGEST: usize = 160;

/// A length that no call gives, which stands there before.
const NO_LENGTH: usize = usize::MAX;

/// A load that was asked for.
#[derive(Debug, Clone, Copy)]
pub struct Asked {
    pub start: u32,
    pub nodes: usize,
}

impl Asked {
    /// Has it written to a lent buffer.
    pub fn write(self, out: &mut [u8]) -> Written {
        let mut len = NO_LENGTH;
        let number = raw::load(self.start, self.nodes, out, &mut len);
        Written { number, len }
    }

    /// Compares what a call left with what each yardstick writes. The error says what differs. `expected` is room as
    /// long as the lent buffer.
    pub fn agrees(
        self,
        yardsticks: &[Yardstick],
        given: Written,
        out: &[u8],
        expected: &mut [u8],
    ) -> Result<(), String> {
        for yardstick in yardsticks {
            let Some(right) = (yardstick.load)(self.start, self.nodes, expected) else { continue };
            if given != right || out != expected {
                let (left, right) = (format!("{:?} {}", given, hex(out)), format!("{:?} {}", right, hex(expected)));
                return Err(self.described(out.len(), &format!("proved {}\nby {} {}", left, yardstick.name, right)));
            }
        }
        Ok(())
    }

    /// What differs, with the call before it.
    pub fn described(self, length: usize, what: &str) -> String {
        let Asked { start, nodes } = self;
        format!("load of start number {}, {} nodes, buffer of {} bytes\n{}", start, nodes, length, what)
    }
}

/// How often loads were asked for.
#[derive(Debug, Clone, Copy, Default, PartialEq, Eq)]
pub struct Counts {
    pub calls: u64,
    pub written: u64,
}

/// Room for the buffers of a call, kept from call to call.
struct Space {
    lent: Vec<u8>,
    expected: Vec<u8>,
    counts: Counts,
}

impl Space {
    fn new() -> Space {
        Space { lent: vec![POISON; LONGEST + 2 * GUARD], expected: vec![0; LONGEST], counts: Counts::default() }
    }

    fn compare(&mut self, yardsticks: &[Yardstick], asked: Asked, length: usize) -> Result<(), String> {
        let lent = &mut self.lent[..length + 2 * GUARD];
        lent.fill(POISON);
        let given = asked.write(&mut lent[GUARD..GUARD + length]);
        if !untouched(&[&lent[..GUARD], &lent[GUARD + length..]]) {
            return Err(asked.described(length, "bytes outside the lent buffer were written"));
        }
        self.counts.calls += 1;
        self.counts.written += (given.number == 0) as u64;
        asked.agrees(yardsticks, given, &lent[GUARD..GUARD + length], &mut self.expected[..length])
    }

    /// Every node count that is taken, with a buffer that is long enough and with one that is too short.
    fn around_the_limit(&mut self, yardsticks: &[Yardstick], start: u32, place: u64) -> Result<(), String> {
        let more = (place % 8) as usize;
        for nodes in 1..=COUNTS as usize {
            let need = 5 + 2 * nodes;
            for length in [need + more, need - 1 - more.min(need - 1)] {
                self.compare(yardsticks, Asked { start, nodes }, length)?;
            }
        }
        Ok(())
    }

    /// Every node count that is taken and some that are refused, with every buffer length.
    fn widely(&mut self, yardsticks: &[Yardstick], start: u32) -> Result<(), String> {
        let refused = [COUNTS + 2, 1 << 8, 1 << 16, 1 << 32, 1 << 63, (1 << 63) + 1, u64::MAX];
        for nodes in (0..=COUNTS + 1).chain(refused) {
            for length in 0..=LONGEST {
                self.compare(yardsticks, Asked { start, nodes: nodes as usize }, length)?;
            }
        }
        Ok(())
    }
}

/// Compares the loads of the start numbers at these places; the error is the first difference of a thread.
pub fn compare(yardsticks: &[Yardstick], seed: u64, places: Range<u64>, threads: usize) -> Result<Counts, String> {
    let work = |first: u64| {
        let mut space = Space::new();
        for place in (places.start + first..places.end).step_by(threads) {
            let start = start(place, &mut Rng::new(seed, STREAM, place));
            space.around_the_limit(yardsticks, start, place)?;
            if place < WIDELY {
                space.widely(yardsticks, start)?;
            }
        }
        Ok(space.counts)
    };
    let done: Vec<Result<Counts, String>> = std::thread::scope(|scope| {
        let workers: Vec<_> = (0..threads as u64).map(|first| scope.spawn(move || work(first))).collect();
        workers.into_iter().map(|worker| worker.join().expect("no thread panics")).collect()
    });
    done.into_iter().try_fold(Counts::default(), |sum, counts| {
        let Counts { calls, written } = counts?;
        Ok(Counts { calls: sum.calls + calls, written: sum.written + written })
    })
}
