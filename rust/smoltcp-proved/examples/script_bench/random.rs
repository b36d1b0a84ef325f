// Made from crates/script_bench/src/random.rt by rust/translate: change it there.
//! Random numbers from a seed.

/// A linear congruential generator modulo 2^64 (Knuth, MMIX).
pub struct Random {
    state: u64,
}

impl Random {
    /// The numbers of this seed.
    pub fn new(seed: u32) -> Random {
        Random { state: u64::from(seed).wrapping_mul(0x9E37_79B9_7F4A_7C15) }
    }

    /// The next 32 bits.
    pub fn word(&mut self) -> u32 {
        self.state = self.state.wrapping_mul(6364136223846793005).wrapping_add(1442695040888963407);
        (self.state >> 32) as u32
    }

    /// A number below `limit`.
    pub fn below(&mut self, limit: u32) -> u32 {
        self.word() % limit
    }

    /// Whether a thing comes to pass that does so `share` times in a thousand.
    pub fn happens(&mut self, share: u32) -> bool {
        self.below(1000) < share
    }
}
