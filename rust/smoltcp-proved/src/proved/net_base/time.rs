// Made from crates/net_base/src/time.rt by rust/translate: change it there.
//! Moments and lengths of time, in whole microseconds.

use core::ops::{Add, Mul, Sub};

/// A moment: so many microseconds after a start that the caller chooses, or before it.
#[derive(Debug, Clone, Copy, PartialEq, Eq, PartialOrd, Ord)]
pub struct Instant {
    /// Microseconds after the start; below zero before it.
    pub micros: i64,
}

impl Instant {
    /// The start itself.
    pub const ZERO: Instant = Instant { micros: 0 };

    /// The moment so many microseconds after the start.
    pub fn from_micros(micros: impl Into<i64>) -> Instant {
        Instant { micros: micros.into() }
    }

    /// The moment so many milliseconds after the start, where it fits 64 bits in microseconds.
    pub fn from_millis(millis: impl Into<i64>) -> Instant {
        Instant::from_micros(millis.into() * 1000)
    }

    /// The moment so many seconds after the start, where it fits 64 bits in microseconds.
    pub fn from_secs(secs: impl Into<i64>) -> Instant {
        Instant::from_micros(secs.into() * 1_000_000)
    }

    /// The whole milliseconds after the start; what is left over is cut off, towards the start.
    pub const fn total_millis(&self) -> i64 {
        self.micros / 1_000
    }
}

/// A length of time, in microseconds.
#[derive(Debug, Clone, Copy, PartialEq, Eq, PartialOrd, Ord)]
pub struct Duration {
    /// How many microseconds.
    pub micros: u64,
}

impl Duration {
    /// No time at all.
    pub const ZERO: Duration = Duration { micros: 0 };

    /// So many microseconds.
    pub const fn from_micros(micros: u64) -> Duration {
        Duration { micros }
    }

    /// So many milliseconds, where they fit 64 bits in microseconds.
    pub const fn from_millis(millis: u64) -> Duration {
        Duration::from_micros(millis * 1000)
    }

    /// So many seconds, where they fit 64 bits in microseconds.
    pub const fn from_secs(secs: u64) -> Duration {
        Duration::from_micros(secs * 1_000_000)
    }

    /// The whole milliseconds of it; what is left over is cut off.
    pub const fn total_millis(&self) -> u64 {
        self.micros / 1000
    }
}

/// The moment `rhs` later, where it fits 64 bits.
impl Add<Duration> for Instant {
    type Output = Instant;

    fn add(self, rhs: Duration) -> Instant {
        Instant { micros: self.micros.checked_add_unsigned(rhs.micros).unwrap() }
    }
}

/// How far two moments are apart, whichever is the earlier.
impl Sub<Instant> for Instant {
    type Output = Duration;

    fn sub(self, rhs: Instant) -> Duration {
        Duration { micros: self.micros.abs_diff(rhs.micros) }
    }
}

/// `rhs` times as long, where it fits 64 bits.
impl Mul<u32> for Duration {
    type Output = Duration;

    fn mul(self, rhs: u32) -> Duration {
        Duration { micros: self.micros * rhs as u64 }
    }
}
