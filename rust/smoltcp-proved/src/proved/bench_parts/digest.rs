// Made from crates/bench_parts/src/digest.rt by rust/translate: change it there.
//! A digest of all that the calls answered.

/// Two sums over words of eight bytes (after Fletcher), so that the order of the words counts.
#[derive(Debug)]
pub struct Digest {
    first: u64,
    second: u64,
    /// How many bytes were added.
    pub bytes: u64,
}

impl Digest {
    /// Of nothing.
    pub fn new() -> Digest {
        Digest { first: 1, second: 0, bytes: 0 }
    }

    /// The sums as one number.
    pub fn value(&self) -> u64 {
        self.second.wrapping_mul(0x9E37_79B9_7F4A_7C15).wrapping_add(self.first)
    }

    /// Adds a number.
    pub fn number(&mut self, number: u64) {
        self.first = self.first.wrapping_mul(3).wrapping_add(number);
        self.second = self.second.wrapping_add(self.first);
    }

    /// Adds bytes, and how many they are.
    pub fn bytes(&mut self, bytes: &[u8]) {
        self.bytes = self.bytes.wrapping_add(bytes.len() as u64);
        let (mut first, mut second) = (self.first, self.second);
        let words = bytes.len() / 8;
        for eight in bytes.chunks_exact(8) {
            first = first.wrapping_add(word(eight, 0));
            second = second.wrapping_add(first);
        }
        self.first = first;
        self.second = second;
        for byte in &bytes[8 * words..] {
            self.number(u64::from(*byte));
        }
        self.number(bytes.len() as u64);
    }
}

// The eight bytes at `at`, the lowest first.
fn word(bytes: &[u8], at: usize) -> u64 {
    crate::kit::le64(bytes, at)
}

fn half(bytes: &[u8], at: usize) -> u32 {
    let low = bytes[at] as u32 | ((bytes[at + 1] as u32) << 8);
    low | ((bytes[at + 2] as u32) << 16) | ((bytes[at + 3] as u32) << 24)
}
