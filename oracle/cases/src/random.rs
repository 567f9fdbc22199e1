//! Splitmix64: small, seeded, the same on every machine.

pub struct Random {
    state: u64,
}

fn mix(mut z: u64) -> u64 {
    z = (z ^ (z >> 30)).wrapping_mul(0xbf58_476d_1ce4_e5b9);
    z = (z ^ (z >> 27)).wrapping_mul(0x94d0_49bb_1331_11eb);
    z ^ (z >> 31)
}

impl Random {
    /// The numbers of one case, so that a case depends on the seed and its own number only.
    pub fn of_case(seed: u64, case: u64) -> Self {
        let state = mix(mix(seed.wrapping_add(0x9e37_79b9_7f4a_7c15)) ^ case);
        Random { state }
    }

    pub fn next(&mut self) -> u64 {
        self.state = self.state.wrapping_add(0x9e37_79b9_7f4a_7c15);
        mix(self.state)
    }

    /// A number below `n`, which is not 0.
    pub fn below(&mut self, n: usize) -> usize {
        (self.next() % n as u64) as usize
    }

    /// From `low` to `high`, both included.
    pub fn from(&mut self, low: usize, high: usize) -> usize {
        low + self.below(high - low + 1)
    }

    /// True once in `n` times.
    pub fn once_in(&mut self, n: usize) -> bool {
        self.below(n) == 0
    }

    pub fn pick<'a, T: ?Sized>(&mut self, from: &[&'a T]) -> &'a T {
        from[self.below(from.len())]
    }

    pub fn character(&mut self, from: &str) -> char {
        let nth = self.below(from.chars().count());
        from.chars().nth(nth).expect("there are that many")
    }

    pub fn number(&mut self, from: &[u64]) -> u64 {
        from[self.below(from.len())]
    }
}
