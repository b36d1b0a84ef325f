// Made from crates/script_bench/src/printed.rt by rust/translate: change it there.
//! A digest of what is printed, whatever pieces it comes in.

use smoltcp_proved::proved::sock_pair::script::{Sink, StreamFault};

// How many bytes are added at once.
const PIECE: usize = 4096;

/// Two sums over words of eight bytes (after Fletcher), so that the order of the words counts.
pub struct Printed {
    piece: [u8; PIECE],
    filled: usize,
    first: u64,
    second: u64,
    /// How many bytes were printed.
    pub count: u64,
}

impl Printed {
    /// Nothing printed.
    pub fn new() -> Printed {
        Printed { piece: [0; PIECE], filled: 0, first: 1, second: 0, count: 0 }
    }

    /// The digest.
    pub fn value(&mut self) -> u64 {
        let filled = self.filled.min(PIECE);
        for at in filled..PIECE {
            self.piece[at] = 0;
        }
        self.add_piece();
        self.filled = 0;
        self.second.wrapping_mul(0x9E37_79B9_7F4A_7C15).wrapping_add(self.first).wrapping_add(self.count)
    }

    fn add_piece(&mut self) {
        let (mut first, mut second) = (self.first, self.second);
        for i in 0..PIECE / 8 {
            first = first.wrapping_add(word(&self.piece, 8 * i));
            second = second.wrapping_add(first);
        }
        self.first = first;
        self.second = second;
    }

    // Adds the beginning of the bytes that fits, and answers the rest.
    fn add<'b>(&mut self, bytes: &'b [u8]) -> &'b [u8] {
        let filled = self.filled.min(PIECE);
        let count = bytes.len().min(PIECE - filled);
        self.piece[filled..filled + count].copy_from_slice(&bytes[..count]);
        self.filled = filled + count;
        if self.filled == PIECE {
            self.add_piece();
            self.filled = 0;
        }
        &bytes[count..]
    }
}

impl Sink for Printed {
    fn write_all(&mut self, bytes: &[u8]) -> Result<(), StreamFault> {
        self.count = self.count.wrapping_add(bytes.len() as u64);
        let mut rest = bytes;
        for _ in 0..=bytes.len() / PIECE + 1 {
            if rest.is_empty() {
                break;
            }
            rest = self.add(rest);
        }
        Ok(())
    }

    fn failed(&self) -> bool {
        false
    }
}

// The eight bytes at `at`, the lowest first.
fn word(bytes: &[u8], at: usize) -> u64 {
    let low = half(bytes, at) as u64;
    let high = half(bytes, at + 4) as u64;
    low | (high << 32)
}

fn half(bytes: &[u8], at: usize) -> u32 {
    let low = bytes[at] as u32 | ((bytes[at + 1] as u32) << 8);
    low | ((bytes[at + 2] as u32) << 16) | ((bytes[at + 3] as u32) << 24)
}
