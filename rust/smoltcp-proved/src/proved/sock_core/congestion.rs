// Made from crates/sock_core/src/congestion.rt by rust/translate: change it there.
//! Congestion control: how many bytes may be in flight (RFC 5681). As smoltcp's Reno, CUBIC (RFC 9438), or none.

use crate::proved::net_base::time::Instant;
pub use crate::proved::sock_core::cubic::Cubic;
pub use crate::proved::sock_core::reno::Reno;
use crate::proved::sock_core::rtte::RttEstimator;

/// Decides how many bytes may be in flight. Counts are bytes.
///
/// What each call leaves depends on the controller as it was and on what the call is told, as in smoltcp's trait.
pub trait Controller {
    /// How many bytes may be in flight.
    fn window(&self) -> usize;

    /// The peer gave this window.
    fn set_remote_window(&mut self, remote_window: usize);

    /// An acknowledgement that is no duplicate came, of `len` bytes, after which `in_flight` are unacknowledged.
    fn on_ack(&mut self, now: Instant, len: usize, in_flight: usize, rtt: &RttEstimator);

    /// An acknowledgement of `len` bytes came in a fast recovery, but not of all that was sent before it: the recovery
    /// goes on (RFC 6582, section 3.2).
    fn on_partial_ack(&mut self, now: Instant, len: usize);

    /// An acknowledgement of `len` new bytes came, and the window is to grow by bytes, not by acknowledgements (RFC
    /// 3465). `careful` says that not all that was sent before a timeout is acknowledged yet.
    fn on_bytes_acked(&mut self, now: Instant, len: usize, careful: bool, rtt: &RttEstimator);

    /// A connection was opened to a peer with this maximum segment size: the initial window is that of RFC 6928.
    fn open(&mut self, mss: usize);

    /// Sending begins again, after nothing was sent for a retransmission timeout: the window is at most the initial
    /// one (RFC 5681, section 4.1).
    fn restart(&mut self);

    /// A duplicate acknowledgement came, which tells that `len` bytes, a segment, left the network.
    fn on_dup_ack(&mut self, now: Instant, len: usize, in_flight: usize);

    /// The retransmission timer ran out.
    fn on_rto(&mut self, now: Instant, in_flight: usize);

    /// Duplicate acknowledgements tell that a segment was lost.
    fn on_loss(&mut self, now: Instant, in_flight: usize);

    /// A segment may go out.
    fn pre_transmit(&mut self, now: Instant);

    /// A segment that takes `len` sequence numbers went out.
    fn post_transmit(&mut self, now: Instant, len: usize);

    /// The peer's maximum segment size.
    fn set_mss(&mut self, mss: usize);
}

/// No congestion control: any number of bytes may be in flight.
#[derive(Debug, Clone, Copy)]
pub struct NoControl;

/// A controller of any kind.
#[derive(Debug, Clone, Copy)]
pub enum AnyController {
    /// No congestion control.
    None(NoControl),
    /// Reno.
    Reno(Reno),
    /// CUBIC.
    #[cfg(feature = "socket-tcp-cubic")]
    Cubic(Cubic),
}

impl AnyController {
    /// Reno.
    pub fn new() -> AnyController {
        AnyController::Reno(Reno::new())
    }

    /// How many bytes may be in the network in a fast recovery that counts what is there (RFC 6675, section 5). Else
    /// the window.
    pub fn recovery_window(&self) -> usize {
        match self {
            AnyController::None(none) => none.window(),
            AnyController::Reno(reno) => reno.recovery_window(),
            #[cfg(feature = "socket-tcp-cubic")]
            AnyController::Cubic(cubic) => cubic.recovery_window(),
        }
    }

    /// The window, in bytes, at which slow start ends. Without congestion control the greatest `usize`.
    pub fn threshold(&self) -> usize {
        match self {
            AnyController::None(_) => usize::MAX,
            AnyController::Reno(reno) => reno.ssthresh(),
            #[cfg(feature = "socket-tcp-cubic")]
            AnyController::Cubic(cubic) => cubic.ssthresh(),
        }
    }

    /// A loss of which it was told was none: its window and threshold are at least these, as before it, and a fast
    /// recovery is over (RFC 4015, section 3.2).
    pub fn undo(&mut self, window: usize, threshold: usize) {
        match self {
            AnyController::None(_) => {}
            AnyController::Reno(reno) => reno.undo(window, threshold),
            #[cfg(feature = "socket-tcp-cubic")]
            AnyController::Cubic(cubic) => cubic.undo(window, threshold),
        }
    }
}

/// An acknowledgement of zero bytes changes nothing.
pub fn ack_of_nothing_changes_nothing() {}

/// A second timeout keeps Reno's threshold, unless new data was acknowledged since the first.
pub fn second_timeout_keeps_threshold() {}

/// After an acknowledgement of new data Reno's window is at least a segment, where its threshold is.
pub fn window_holds_a_segment() {}

impl Controller for NoControl {
    fn window(&self) -> usize {
        usize::MAX
    }

    fn set_remote_window(&mut self, _remote_window: usize) {}

    fn on_ack(&mut self, _now: Instant, _len: usize, _in_flight: usize, _rtt: &RttEstimator) {}

    fn on_partial_ack(&mut self, _now: Instant, _len: usize) {}

    fn on_bytes_acked(&mut self, _now: Instant, _len: usize, _careful: bool, _rtt: &RttEstimator) {}

    fn open(&mut self, _mss: usize) {}

    fn restart(&mut self) {}

    fn on_dup_ack(&mut self, _now: Instant, _len: usize, _in_flight: usize) {}

    fn on_rto(&mut self, _now: Instant, _in_flight: usize) {}

    fn on_loss(&mut self, _now: Instant, _in_flight: usize) {}

    fn pre_transmit(&mut self, _now: Instant) {}

    fn post_transmit(&mut self, _now: Instant, _len: usize) {}

    fn set_mss(&mut self, _mss: usize) {}
}

impl Controller for AnyController {
    fn window(&self) -> usize {
        match self {
            AnyController::None(none) => none.window(),
            AnyController::Reno(reno) => reno.window(),
            #[cfg(feature = "socket-tcp-cubic")]
            AnyController::Cubic(cubic) => cubic.window(),
        }
    }

    fn set_remote_window(&mut self, remote_window: usize) {
        match self {
            AnyController::None(none) => none.set_remote_window(remote_window),
            AnyController::Reno(reno) => reno.set_remote_window(remote_window),
            #[cfg(feature = "socket-tcp-cubic")]
            AnyController::Cubic(cubic) => cubic.set_remote_window(remote_window),
        }
    }

    fn on_ack(&mut self, now: Instant, len: usize, in_flight: usize, rtt: &RttEstimator) {
        match self {
            AnyController::None(none) => none.on_ack(now, len, in_flight, rtt),
            AnyController::Reno(reno) => reno.on_ack(now, len, in_flight, rtt),
            #[cfg(feature = "socket-tcp-cubic")]
            AnyController::Cubic(cubic) => cubic.on_ack(now, len, in_flight, rtt),
        }
    }

    fn on_partial_ack(&mut self, now: Instant, len: usize) {
        match self {
            AnyController::None(none) => none.on_partial_ack(now, len),
            AnyController::Reno(reno) => reno.on_partial_ack(now, len),
            #[cfg(feature = "socket-tcp-cubic")]
            AnyController::Cubic(cubic) => cubic.on_partial_ack(now, len),
        }
    }

    fn on_bytes_acked(&mut self, now: Instant, len: usize, careful: bool, rtt: &RttEstimator) {
        match self {
            AnyController::None(none) => none.on_bytes_acked(now, len, careful, rtt),
            AnyController::Reno(reno) => reno.on_bytes_acked(now, len, careful, rtt),
            #[cfg(feature = "socket-tcp-cubic")]
            AnyController::Cubic(cubic) => cubic.on_bytes_acked(now, len, careful, rtt),
        }
    }

    fn open(&mut self, mss: usize) {
        match self {
            AnyController::None(none) => none.open(mss),
            AnyController::Reno(reno) => reno.open(mss),
            #[cfg(feature = "socket-tcp-cubic")]
            AnyController::Cubic(cubic) => cubic.open(mss),
        }
    }

    fn restart(&mut self) {
        match self {
            AnyController::None(none) => none.restart(),
            AnyController::Reno(reno) => reno.restart(),
            #[cfg(feature = "socket-tcp-cubic")]
            AnyController::Cubic(cubic) => cubic.restart(),
        }
    }

    fn on_dup_ack(&mut self, now: Instant, len: usize, in_flight: usize) {
        match self {
            AnyController::None(none) => none.on_dup_ack(now, len, in_flight),
            AnyController::Reno(reno) => reno.on_dup_ack(now, len, in_flight),
            #[cfg(feature = "socket-tcp-cubic")]
            AnyController::Cubic(cubic) => cubic.on_dup_ack(now, len, in_flight),
        }
    }

    fn on_rto(&mut self, now: Instant, in_flight: usize) {
        match self {
            AnyController::None(none) => none.on_rto(now, in_flight),
            AnyController::Reno(reno) => reno.on_rto(now, in_flight),
            #[cfg(feature = "socket-tcp-cubic")]
            AnyController::Cubic(cubic) => cubic.on_rto(now, in_flight),
        }
    }

    fn on_loss(&mut self, now: Instant, in_flight: usize) {
        match self {
            AnyController::None(none) => none.on_loss(now, in_flight),
            AnyController::Reno(reno) => reno.on_loss(now, in_flight),
            #[cfg(feature = "socket-tcp-cubic")]
            AnyController::Cubic(cubic) => cubic.on_loss(now, in_flight),
        }
    }

    fn pre_transmit(&mut self, now: Instant) {
        match self {
            AnyController::None(none) => none.pre_transmit(now),
            AnyController::Reno(reno) => reno.pre_transmit(now),
            #[cfg(feature = "socket-tcp-cubic")]
            AnyController::Cubic(cubic) => cubic.pre_transmit(now),
        }
    }

    fn post_transmit(&mut self, now: Instant, len: usize) {
        match self {
            AnyController::None(none) => none.post_transmit(now, len),
            AnyController::Reno(reno) => reno.post_transmit(now, len),
            #[cfg(feature = "socket-tcp-cubic")]
            AnyController::Cubic(cubic) => cubic.post_transmit(now, len),
        }
    }

    fn set_mss(&mut self, mss: usize) {
        match self {
            AnyController::None(none) => none.set_mss(mss),
            AnyController::Reno(reno) => reno.set_mss(mss),
            #[cfg(feature = "socket-tcp-cubic")]
            AnyController::Cubic(cubic) => cubic.set_mss(mss),
        }
    }
}
