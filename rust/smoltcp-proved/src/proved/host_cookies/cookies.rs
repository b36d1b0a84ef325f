// Made from crates/host_cookies/src/cookies.rt by rust/translate: change it there.
//! Who is answered without a socket, and whose answer is believed.

use crate::kit::rand_chacha::ChaCha20Rng;
use crate::kit::rand_core::SeedableRng;
use crate::proved::host_cookies::call::Call;
use crate::proved::host_cookies::mix::{mixed, tag_of};

// A step of time, in microseconds.
const STEP: u128 = 64_000_000;

/// Answers to SYNs that hold no socket (RFC 4987, section 3.6).
#[derive(Clone, Copy)]
pub struct SynCookies {
    pub(crate) key: [u8; 32],
    pub(crate) kept_from: usize,
    // the moment of the last answer, in microseconds
    pub(crate) answered: Option<i64>,
}

impl SynCookies {
    /// Under this key, which has to be drawn anew at each start of the program, and be told to nobody. The sockets of
    /// a set from the place `kept_from` on are kept for peers that answer: as long as one of those alone listens for
    /// a SYN, the SYN is answered, and no socket takes it.
    pub fn new(key: [u8; 32], kept_from: usize) -> SynCookies {
        SynCookies { key, kept_from, answered: None }
    }

    /// From which place on sockets are kept for peers that answer.
    pub fn kept_from(&self) -> usize {
        self.kept_from
    }

    /// A SYN is answered at this moment, in microseconds.
    pub fn note(&mut self, micros: i64) {
        self.answered = Some(micros);
    }

    /// Whether an acknowledgement of an answer may come at this time, in microseconds: the last one that was noted went
    /// out up to 64 seconds before the step of time that this lies in, or later.
    pub fn awaits(&self, micros: i64) -> bool {
        match self.answered {
            None => false,
            Some(at) => step_of(micros) <= step_of(at) + 1,
        }
    }

    /// The number of the answer to a SYN that told a largest segment of this class, at this moment in microseconds.
    /// `told` stands for what else the answer tells of the SYN (`told_number`, or 0).
    pub fn number(&self, call: &Call, class: u8, told: u16, micros: i64) -> u32 {
        let mut words = ChaCha20Rng::from_seed(self.key);
        let tag = tag_of(&mut words, call);
        numbered(&mut words, tag, step_of(micros), class, told)
    }

    /// The class of the SYN that a number of this moment, or of up to 64 seconds before, answers, where it is that of
    /// an answer to this call that told the same.
    pub fn recognised(&self, call: &Call, told: u16, number: u32, micros: i64) -> Option<u8> {
        let mut words = ChaCha20Rng::from_seed(self.key);
        let tag = tag_of(&mut words, call);
        recognised(&mut words, tag, step_of(micros), told, number)
    }
}

fn step_of(micros: i64) -> u64 {
    ((i128::from(micros) + 9_223_372_036_854_775_808).unsigned_abs() / STEP) as u64
}

fn numbered(words: &mut ChaCha20Rng, tag: u64, step: u64, class: u8, told: u16) -> u32 {
    let place = (step * 8 + u64::from(class)) * 65536 + u64::from(told);
    let mix = mixed(words, tag, place) % 536_870_912;
    u32::from(class) * 536_870_912 + mix as u32
}

fn recognised(words: &mut ChaCha20Rng, tag: u64, step: u64, told: u16, number: u32) -> Option<u8> {
    let class = class_in(number);
    if number == numbered(words, tag, step, class, told)
        || number == numbered(words, tag, step.saturating_sub(1), class, told)
    {
        Some(class)
    } else {
        None
    }
}

/// The class that a number tells, whether it is of an answer or not.
pub fn class_in(number: u32) -> u8 {
    (number / 536_870_912) as u8
}

/// Within 64 seconds the number of an answer is recognised, as of the class of its SYN and of what it told: of the same
/// step of time, or of the next one.
pub fn answers_are_recognised() {}
