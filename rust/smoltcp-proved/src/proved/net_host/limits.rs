// Made from crates/net_host/src/limits.rt by rust/translate: change it there.
//! The limits that a host sets its TCP connections, as numbers.

use crate::proved::net_base::time::Duration;
use crate::proved::net_host::guard::{GuardSettings, Kind};

/// The limits of `GuardSettings`. Each `emit` compares them with those that its set was asked under last: five numbers
/// side by side, which takes a fifth of what four `Option`s do.
pub struct Limits {
    // in microseconds; anything where there is none
    handshake: u64,
    closing: u64,
    window: u64,
    timeout: u64,
    // whether there is one: 1, 2, 4 and 8 of those that there are
    given: u8,
}

// Whether there is a limit, and its microseconds.
fn parts_of(limit: Option<Duration>) -> (bool, u64) {
    match limit {
        None => (false, 0),
        Some(limit) => (true, limit.micros),
    }
}

fn limit_from(given: bool, micros: u64) -> Option<Duration> {
    if given { Some(Duration { micros }) } else { None }
}

// Whether there is which, as one number.
fn given_of(handshake: bool, closing: bool, window: bool, timeout: bool) -> u8 {
    digit(handshake, 1) + digit(closing, 2) + digit(window, 4) + digit(timeout, 8)
}

fn digit(given: bool, place: u8) -> u8 {
    if given { place } else { 0 }
}

// Whether there is the one of this place.
fn is_given(given: u8, place: u8) -> bool {
    given / place % 2 == 1
}

impl Limits {
    /// The settings as numbers.
    pub fn of(settings: &GuardSettings) -> Limits {
        let (has_handshake, handshake) = parts_of(settings.handshake);
        let (has_closing, closing) = parts_of(settings.closing);
        let (has_window, window) = parts_of(settings.window);
        let (has_timeout, timeout) = parts_of(settings.timeout);
        Limits {
            handshake,
            closing,
            window,
            timeout,
            given: given_of(has_handshake, has_closing, has_window, has_timeout),
        }
    }

    /// What the numbers stand for.
    pub fn settings(&self) -> GuardSettings {
        GuardSettings {
            handshake: limit_from(is_given(self.given, 1), self.handshake),
            closing: limit_from(is_given(self.given, 2), self.closing),
            window: limit_from(is_given(self.given, 4), self.window),
            timeout: limit_from(is_given(self.given, 8), self.timeout),
        }
    }

    /// The limit of what the peer is waited for: whether there is one, and its microseconds.
    #[inline(always)]
    pub(crate) fn of_kind(&self, kind: Kind) -> (bool, u64) {
        match kind {
            Kind::Stuck => (is_given(self.given, 4), self.window),
            Kind::Handshake => (is_given(self.given, 1), self.handshake),
            _ => (is_given(self.given, 2), self.closing),
        }
    }

    /// The limit of bytes that wait in ESTABLISHED or CLOSE-WAIT.
    #[inline(always)]
    pub(crate) fn of_bytes(&self) -> (bool, u64) {
        (is_given(self.given, 4), self.window)
    }

    /// The user timeout.
    pub(crate) fn timeout(&self) -> Option<Duration> {
        limit_from(is_given(self.given, 8), self.timeout)
    }

    // Whether the numbers are the same; they may differ where there is no limit. `&` compares them side by side.
    pub(crate) fn are(&self, other: &Limits) -> bool {
        (self.handshake == other.handshake)
            & (self.closing == other.closing)
            & (self.window == other.window)
            & (self.timeout == other.timeout)
            & (self.given == other.given)
    }
}
