//! A small deterministic generator of numbers (splitmix64): the same on every machine.

#[derive(Debug, Clone)]
pub struct Rng {
    state: u64,
}

impl Rng {
    /// The stream of one case: any two of seed, profile and index give streams of their own.
    pub fn new(seed: u64, stream: u64, index: u64) -> Rng {
        let mut rng = Rng { state: seed };
        rng.state = rng.next() ^ stream.wrapping_mul(0xd6e8_feb8_6659_fd93);
        rng.state = rng.next() ^ index.wrapping_mul(0xa076_1d64_78bd_642f);
        rng
    }

    /// A stream of its own, which leaves this one as it is.
    pub fn aside(&self) -> Rng {
        Rng::new(self.state, 1, 0)
    }

    pub fn next(&mut self) -> u64 {
        self.state = self.state.wrapping_add(0x9e37_79b9_7f4a_7c15);
        let mut z = self.state;
        z = (z ^ (z >> 30)).wrapping_mul(0xbf58_476d_1ce4_e5b9);
        z = (z ^ (z >> 27)).wrapping_mul(0x94d0_49bb_1331_11eb);
        z ^ (z >> 31)
    }

    /// A number below `n`, which is not 0.
    pub fn below(&mut self, n: usize) -> usize {
        ((self.next() >> 32).wrapping_mul(n as u64) >> 32) as usize
    }

    pub fn byte(&mut self) -> u8 {
        (self.next() >> 56) as u8
    }

    /// True in `percent` of 100 draws.
    pub fn chance(&mut self, percent: usize) -> bool {
        self.below(100) < percent
    }

    pub fn pick<'a, T>(&mut self, items: &'a [T]) -> &'a T {
        &items[self.below(items.len())]
    }
}
