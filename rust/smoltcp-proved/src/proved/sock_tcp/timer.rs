// Made from crates/sock_tcp/src/timer.rt by rust/translate: change it there.
//! What a socket waits for.

use crate::proved::net_base::time::{Duration, Instant};
use crate::proved::sock_core::PollAt;
use crate::proved::sock_core::rtte::RttEstimator;

// How long TIME-WAIT lasts, as smoltcp.
const CLOSE_DELAY: Duration = Duration { micros: 10_000_000 };

// How long after a challenge ACK none goes out, as smoltcp.
pub(crate) const CHALLENGE_INTERVAL: Duration = Duration { micros: 1_000_000 };

// The longest time between two probes, as smoltcp.
const LONGEST_PROBE: u64 = 60_000_000;

// The moment so long after `now`.
pub(crate) fn after(now: Instant, delay: Duration) -> Instant {
    now + delay
}

// Whether `now` is that moment or later.
pub(crate) fn is_over(at: Instant, now: Instant) -> bool {
    at.micros <= now.micros
}

/// The timer of a connection, as smoltcp.
#[derive(Debug, Clone, Copy, PartialEq, Eq)]
pub enum Timer {
    /// Nothing is waited for but the next keep-alive, where one is to come (RFC 9293, section 3.8.4).
    Idle { keep_alive_at: Option<Instant> },
    /// An acknowledgement; what is not acknowledged is sent again at this moment (RFC 6298, section 5).
    Retransmit { expires_at: Instant },
    /// The next dispatch, which sends the oldest unacknowledged segment again (RFC 5681, section 3.2).
    FastRetransmit,
    /// A window; a byte probes for it at this moment, so long after the last one (RFC 9293, section 3.8.6.1).
    ZeroWindowProbe { expires_at: Instant, delay: Duration },
    /// The end of TIME-WAIT (RFC 9293, section 3.4.2).
    Close { expires_at: Instant },
}

impl Timer {
    // Nothing is waited for but a keep-alive, one interval from now.
    pub(crate) fn idle(now: Instant, interval: Option<Duration>) -> Timer {
        Timer::Idle {
            keep_alive_at: match interval {
                None => None,
                Some(interval) => Some(after(now, interval)),
            },
        }
    }

    // What is not acknowledged is sent again one retransmission timeout from now.
    pub(crate) fn retransmit(now: Instant, rtte: &RttEstimator) -> Timer {
        Timer::Retransmit { expires_at: after(now, rtte.retransmission_timeout()) }
    }

    // A window is probed for one retransmission timeout from now.
    pub(crate) fn probe(now: Instant, rtte: &RttEstimator) -> Timer {
        let delay = rtte.retransmission_timeout();
        Timer::ZeroWindowProbe { expires_at: after(now, delay), delay }
    }

    // TIME-WAIT ends so long from now.
    pub(crate) fn close(now: Instant) -> Timer {
        Timer::Close { expires_at: after(now, CLOSE_DELAY) }
    }

    pub(crate) fn is_idle(self) -> bool {
        matches!(self, Timer::Idle { .. })
    }

    // Whether a keep-alive is to go out.
    pub(crate) fn is_keep_alive_over(self, now: Instant) -> bool {
        match self {
            Timer::Idle { keep_alive_at: Some(at) } => is_over(at, now),
            _ => false,
        }
    }

    // Whether a window is to be probed for.
    pub(crate) fn is_probe_over(self, now: Instant) -> bool {
        match self {
            Timer::ZeroWindowProbe { expires_at, .. } => is_over(expires_at, now),
            _ => false,
        }
    }

    // Whether TIME-WAIT ends.
    pub(crate) fn is_close_over(self, now: Instant) -> bool {
        match self {
            Timer::Close { expires_at } => is_over(expires_at, now),
            _ => false,
        }
    }

    // The next keep-alive is one interval from now.
    pub(crate) fn keep_alive_renewed(self, now: Instant, interval: Option<Duration>) -> Timer {
        match self {
            Timer::Idle { .. } => Timer::idle(now, interval),
            _ => self,
        }
    }

    // The next probe comes after twice the delay, from now.
    pub(crate) fn probe_doubled(self, now: Instant) -> Timer {
        match self {
            Timer::ZeroWindowProbe { delay, .. } => {
                let delay = twice(delay);
                Timer::ZeroWindowProbe { expires_at: after(now, delay), delay }
            }
            _ => self,
        }
    }

    // Sequence numbers went out, which are sent again where they are not acknowledged.
    pub(crate) fn retransmit_unless_set(self, now: Instant, rtte: &RttEstimator) -> Timer {
        match self {
            Timer::Idle { .. } | Timer::ZeroWindowProbe { .. } => Timer::retransmit(now, rtte),
            _ => self,
        }
    }

    // What the timer waits for.
    pub(crate) fn poll_at(self) -> PollAt {
        match self {
            Timer::Idle { keep_alive_at: None } => PollAt::Ingress,
            Timer::Idle { keep_alive_at: Some(at) } => PollAt::Time(at),
            Timer::Retransmit { expires_at } => PollAt::Time(expires_at),
            Timer::FastRetransmit => PollAt::Now,
            Timer::ZeroWindowProbe { expires_at, .. } => PollAt::Time(expires_at),
            Timer::Close { expires_at } => PollAt::Time(expires_at),
        }
    }
}

// Twice as long, and at most the longest time between probes.
fn twice(delay: Duration) -> Duration {
    Duration { micros: (delay.micros * 2).min(LONGEST_PROBE) }
}

/// How long an acknowledgement may still wait for data to go with (RFC 9293, section 3.8.6.3).
#[derive(Debug, Clone, Copy, PartialEq, Eq)]
pub enum AckDelayTimer {
    /// None waits.
    Idle,
    /// One waits until this moment.
    Waiting(Instant),
    /// One is due at once.
    Immediate,
}

impl AckDelayTimer {
    // How long an acknowledgement that is due may wait.
    pub(crate) fn poll_at(self) -> PollAt {
        match self {
            AckDelayTimer::Waiting(at) => PollAt::Time(at),
            AckDelayTimer::Idle | AckDelayTimer::Immediate => PollAt::Now,
        }
    }
}
