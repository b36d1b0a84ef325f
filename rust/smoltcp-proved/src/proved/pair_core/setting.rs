// Made from crates/pair_core/src/setting.rt by rust/translate: change it there.
//! What may be set of a socket of a pair.

use crate::proved::net_base::time::Duration;
use crate::proved::sock_tcp::{CongestionControl, Rules};

/// A duration of at most 2^61 microseconds, or none.
#[derive(Debug, Clone, Copy, PartialEq, Eq)]
pub struct Interval {
    /// The duration, where there is one.
    pub duration: Option<Duration>,
}

impl Interval {
    /// This duration, of at most 2^61 microseconds, or none.
    pub fn new(duration: Option<Duration>) -> Interval {
        Interval { duration }
    }
}

/// A hop limit from 1 to 255, or none.
#[derive(Debug, Clone, Copy, PartialEq, Eq)]
pub struct HopLimit {
    /// The hop limit, where there is one.
    pub hop_limit: Option<u8>,
}

impl HopLimit {
    /// This hop limit, which is not zero, or none.
    pub fn new(hop_limit: Option<u8>) -> HopLimit {
        HopLimit { hop_limit }
    }
}

/// What a setter of a socket is given.
#[derive(Debug, Clone, Copy, PartialEq, Eq)]
pub enum Setting {
    /// Of `set_timeout`.
    Timeout(Interval),
    /// Of `set_ack_delay`.
    AckDelay(Interval),
    /// Of `set_keep_alive`.
    KeepAlive(Interval),
    /// Of `set_nagle_enabled`.
    Nagle(bool),
    /// Of `set_hop_limit`.
    HopLimit(HopLimit),
    /// Of `set_congestion_control`.
    Congestion(CongestionControl),
    /// Of `pause_synack`.
    Pause(bool),
    /// Of `set_rules`, which changes nothing of an open socket.
    Rules(Rules),
}
