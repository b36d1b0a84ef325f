// Made from crates/host_bench/src/draw.rt by rust/translate: change it there.
//! Random numbers from a seed, and a digest of what was read.

use core::fmt;
use smoltcp_proved::proved::host_context::{Seeded, Words};

/// Numbers from a seed.
#[derive(Debug)]
pub struct Draw {
    words: Seeded,
}

impl Draw {
    /// The numbers of this seed.
    pub fn new(seed: u32) -> Draw {
        Draw { words: Seeded { state: u64::from(seed) } }
    }

    /// A number below `limit`.
    pub fn below(&mut self, limit: u32) -> u32 {
        self.words.next() % limit
    }
}

/// What was read, and when all was done.
#[derive(Debug, Clone, Copy)]
pub struct Digest {
    value: u64,
    bytes: u64,
    millis: u64,
}

impl Digest {
    /// Of nothing.
    pub fn new() -> Digest {
        Digest { value: 1, bytes: 0, millis: 0 }
    }

    /// Adds bytes that were read.
    pub fn add(&mut self, bytes: &[u8]) {
        for byte in bytes {
            self.value = self.value.wrapping_mul(31).wrapping_add(u64::from(*byte));
        }
        self.bytes = self.bytes.wrapping_add(bytes.len() as u64);
    }

    /// Adds so many milliseconds that a part of the job took.
    pub fn took(&mut self, millis: u32) {
        self.millis = self.millis.wrapping_add(u64::from(millis));
    }
}

impl fmt::Display for Digest {
    fn fmt(&self, f: &mut fmt::Formatter<'_>) -> fmt::Result {
        write!(f, "{:016x} of {} bytes in {} ms", self.value, self.bytes, self.millis)
    }
}
