// Made from crates/host_context/src/words.rt by rust/translate: change it there.
//! The random words of the sockets: initial sequence numbers, and the ports that nobody chose.

/// A source of random words.
pub trait Words {
    /// The next word.
    fn next(&mut self) -> u32;
}

/// A linear congruential generator (Knuth, MMIX): the same words from the same seed, so that a run can be repeated.
/// Whoever sees some of them can tell the others: a host on a network where anybody may listen wants better ones.
#[derive(Debug, Clone, Copy, PartialEq, Eq)]
pub struct Seeded {
    /// What the next word is made of: at first, the seed.
    pub state: u64,
}

impl Words for Seeded {
    fn next(&mut self) -> u32 {
        self.state = self.state.wrapping_mul(6364136223846793005).wrapping_add(1442695040888963407);
        (self.state >> 32) as u32
    }
}
