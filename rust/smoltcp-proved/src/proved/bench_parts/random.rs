// Made from crates/bench_parts/src/random.rt by rust/translate: change it there.
//! Random numbers from a seed.

use crate::kit::alloc::{AllocError, Global};
use crate::kit::{Vec, vec};

// How many bytes the applications take what they send from.
const SOURCE: usize = 1 << 17;

/// A linear congruential generator modulo 2^64 (Knuth, MMIX).
#[derive(Debug)]
pub struct Random {
    state: u64,
}

impl Random {
    /// The numbers of this seed.
    pub fn new(seed: u32) -> Random {
        Random { state: u64::from(seed).wrapping_mul(0x9E37_79B9_7F4A_7C15) }
    }

    /// The next 32 bits.
    pub fn word(&mut self) -> u32 {
        self.state = self.state.wrapping_mul(6364136223846793005).wrapping_add(1442695040888963407);
        (self.state >> 32) as u32
    }

    /// A number below `limit`.
    pub fn below(&mut self, limit: u32) -> u32 {
        self.word() % limit
    }

    /// Whether a thing comes to pass that does so `share` times in a thousand.
    pub fn happens(&mut self, share: u32) -> bool {
        self.below(1000) < share
    }

    /// A piece of the bytes: 1 to `most` of them, from any place on.
    pub fn piece<'b>(&mut self, bytes: &'b [u8], most: usize) -> &'b [u8] {
        let most = most.min(bytes.len());
        if most == 0 || most > 0xffff_ffff {
            return bytes;
        }
        let len = 1 + self.below(most as u32) as usize;
        let places = bytes.len() - len;
        if places == 0 || places > 0xffff_ffff {
            return &bytes[..len];
        }
        let at = self.below(places as u32) as usize;
        &bytes[at..at + len]
    }
}

/// Bytes that no two places of which begin alike.
pub fn source(alloc: Global, random: &mut Random) -> Result<Vec<u8>, AllocError> {
    let mut bytes = vec![in alloc; 0u8; SOURCE]?;
    for byte in bytes.iter_mut() {
        *byte = random.below(256) as u8;
    }
    Ok(bytes)
}
