//! Numbers from a seed, the same on every machine: SplitMix64. For test inputs only.

/// The generator's state. Its period is 2^64.
pub struct Generator {
    state: u64,
}

impl Generator {
    pub fn from_seed(seed: u64) -> Generator {
        Generator { state: seed }
    }

    /// The next 64 bits: the state steps by an odd constant, and is then mixed.
    pub fn word(&mut self) -> u64 {
        self.state = self.state.wrapping_add(0x9e37_79b9_7f4a_7c15);
        let mut z = self.state;
        z = (z ^ (z >> 30)).wrapping_mul(0xbf58_476d_1ce4_e5b9);
        z = (z ^ (z >> 27)).wrapping_mul(0x94d0_49bb_1331_11eb);
        z ^ (z >> 31)
    }

    /// A number below the bound. Its slight bias does not matter to a test.
    pub fn below(&mut self, bound: u64) -> u64 {
        self.word() % bound
    }

    /// A byte below the bound, which is at most 256.
    pub fn byte_below(&mut self, bound: u16) -> u8 {
        u8::try_from(self.below(u64::from(bound))).expect("the bound is at most 256")
    }

    /// That many bytes below the bound.
    pub fn bytes_below(&mut self, bound: u16, count: usize) -> Vec<u8> {
        (0..count).map(|_| self.byte_below(bound)).collect()
    }
}
