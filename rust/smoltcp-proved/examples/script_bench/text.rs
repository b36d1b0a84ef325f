// Made from crates/script_bench/src/text.rt by rust/translate: change it there.
//! The text of a script, as it is put together.

use crate::random::Random;
use smoltcp_proved::kit::Vec;
use smoltcp_proved::kit::alloc::{AllocError, Global};

// No text is longer.
const LONGEST: usize = 1400;

/// The lines so far, how many segments their events emit, and the moment.
pub struct Text {
    pub bytes: Vec<u8>,
    pub emitted: u32,
    pub now: u32,
    // printable characters, from which the texts are taken
    letters: Vec<u8>,
}

impl Text {
    /// No lines.
    pub fn new(alloc: Global, random: &mut Random) -> Result<Text, AllocError> {
        let mut letters = Vec::new(alloc);
        for _ in 0..4 * LONGEST {
            letters.push(33 + random.below(94) as u8)?;
        }
        Ok(Text { bytes: Vec::new(alloc), emitted: 0, now: 0, letters })
    }

    /// A line, or a piece of one.
    pub fn put(&mut self, bytes: &[u8]) -> Result<(), AllocError> {
        self.bytes.extend_from_slice(bytes)?;
        Ok(())
    }

    /// A number in decimal digits.
    pub fn number(&mut self, number: u32) -> Result<(), AllocError> {
        let mut digits = [b'0'; 10];
        let mut rest = number;
        let mut first = 9;
        for i in 0..10 {
            first = 9 - i;
            digits[9 - i] = b'0' + (rest % 10) as u8;
            rest /= 10;
            if rest == 0 {
                break;
            }
        }
        self.put(&digits[first.min(9)..])
    }

    /// `send` with so many characters.
    pub fn send(&mut self, len: usize, random: &mut Random) -> Result<(), AllocError> {
        self.put(b"send a ")?;
        let len = len.min(self.letters.len());
        let places = self.letters.len() - len;
        if places > 0 && places < 1_000_000 {
            let at = random.below(places as u32) as usize;
            self.bytes.extend_from_slice(&self.letters.as_slice()[at..at + len])?;
        }
        self.put(b"\n")
    }

    /// `dispatch` of a side at this moment.
    pub fn dispatch(&mut self, side: &[u8]) -> Result<(), AllocError> {
        self.put(b"dispatch ")?;
        self.put(side)?;
        self.put(b" ")?;
        self.number(self.now)?;
        self.put(b"\n")
    }

    /// `deliver` of a segment at this moment.
    pub fn deliver(&mut self, index: u32, word: u32) -> Result<(), AllocError> {
        self.put(b"deliver ")?;
        self.number(index)?;
        self.put(b" ")?;
        self.number(self.now)?;
        self.put(b" ")?;
        self.number(word)?;
        self.put(b"\n")
    }

    /// Time passes.
    pub fn wait(&mut self, millis: u32) {
        self.now = self.now.wrapping_add(millis);
    }

    /// Counts segments that were emitted.
    pub fn count(&mut self, segments: u32) {
        self.emitted = self.emitted.wrapping_add(segments);
    }
}
