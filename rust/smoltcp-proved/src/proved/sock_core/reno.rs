// Made from crates/sock_core/src/reno.rt by rust/translate: change it there.
//! Reno (RFC 5681), as smoltcp's, and the window by bytes (RFC 3465) and at the opening (RFC 6928).

use crate::proved::net_base::time::Instant;
use crate::proved::sock_core::congestion::Controller;
use crate::proved::sock_core::rtte::RttEstimator;

/// Reno: slow start, congestion avoidance, fast retransmit and fast recovery (RFC 5681).
/// Sums and products stop at the greatest `usize`; in congestion avoidance a window of 0 counts as 1.
#[derive(Debug, Clone, Copy)]
pub struct Reno {
    cwnd: usize,
    mss: usize,
    rwnd: usize,
    ssthresh: usize,
    in_timeout: bool,
    in_recovery: bool,
}

impl Reno {
    /// A window of 2048 bytes, segments of 1024, and no threshold yet.
    pub fn new() -> Reno {
        Reno {
            cwnd: 2048,
            mss: 1024,
            rwnd: 65536,
            ssthresh: usize::MAX,
            in_timeout: false,
            in_recovery: false,
        }
    }

    /// The window, in bytes, at which slow start ends.
    pub fn ssthresh(&self) -> usize {
        self.ssthresh
    }

    /// How many bytes may be in the network in a fast recovery that counts what is there: the threshold (RFC 6675,
    /// section 5). Else the window.
    pub fn recovery_window(&self) -> usize {
        if self.in_recovery { self.bounded(self.ssthresh) } else { self.cwnd }
    }

    /// A loss was none: window and threshold are at least these, as before it.
    pub fn undo(&mut self, window: usize, threshold: usize) {
        self.cwnd = self.cwnd.max(window);
        self.ssthresh = self.ssthresh.max(threshold);
        self.in_recovery = false;
    }

    /// The maximum segment size.
    pub(crate) fn mss(&self) -> usize {
        self.mss
    }

    /// Whether it is in a fast recovery.
    pub(crate) fn recovers(&self) -> bool {
        self.in_recovery
    }

    /// Whether it is in congestion avoidance.
    pub(crate) fn avoids(&self) -> bool {
        !(self.in_recovery || self.cwnd < self.ssthresh)
    }

    /// How far `len` acknowledged bytes of a window of them lead towards a larger one (RFC 9438, section 4.4).
    pub(crate) fn step_towards(&self, target: u64, len: usize) -> usize {
        let most = self.cwnd.saturating_add(self.cwnd / 2) as u64;
        let further = target.min(most).saturating_sub(self.cwnd as u64) as usize;
        further.saturating_mul(len.min(self.cwnd)) / self.cwnd.max(1)
    }

    /// A fast recovery begins, with this threshold.
    pub(crate) fn recover(&mut self, threshold: usize) {
        self.ssthresh = threshold;
        self.cwnd = threshold.min(self.rwnd).saturating_add(self.mss.saturating_mul(3));
        self.in_recovery = true;
    }

    /// A timeout: sending begins anew with a segment, and where it is the first one with this threshold.
    pub(crate) fn begin_anew(&mut self, threshold: usize) {
        if !self.in_timeout {
            self.ssthresh = threshold;
        }
        self.cwnd = self.mss;
        self.in_timeout = true;
        self.in_recovery = false;
    }

    // At most the peer's window, and at least a segment.
    fn bounded(&self, window: usize) -> usize {
        window.min(self.rwnd).max(self.mss)
    }

    // How far an acknowledgement of `len` bytes opens the window.
    pub(crate) fn growth(&self, len: usize) -> usize {
        if self.cwnd < self.ssthresh {
            len.min(self.mss)
        } else {
            (self.mss.saturating_mul(self.mss) / self.cwnd.max(1)).max(1)
        }
    }

    // How far the window opens, counted in bytes (RFC 3465, sections 2.1 and 2.3; RFC 9406, section 4.2).
    pub(crate) fn growth_in_bytes(&self, len: usize, careful: bool) -> usize {
        if self.cwnd < self.ssthresh {
            len.min(self.most_growth(careful))
        } else {
            (self.mss.saturating_mul(len.min(self.cwnd)) / self.cwnd.max(1)).max(1)
        }
    }

    // Eight segments, where packets are not paced (RFC 9406, section 4.3); after a timeout one (RFC 3465, section 2.3).
    fn most_growth(&self, careful: bool) -> usize {
        if careful { self.mss } else { self.mss.saturating_mul(8) }
    }

    // RFC 6928, section 2.
    fn initial_window(&self) -> usize {
        let least = self.mss.saturating_mul(2);
        self.mss.saturating_mul(10).min(least.max(14_600))
    }

    // Half of the bytes that are sent and not yet acknowledged, and at least two segments (RFC 5681, section 3.1).
    fn halved(&self, in_flight: usize) -> usize {
        (in_flight / 2).max(self.mss.saturating_mul(2))
    }

    // The window of a fast recovery that goes on once `len` bytes are acknowledged (RFC 6582, section 3.2, step 3).
    fn deflated(&self, len: usize) -> usize {
        let more = if len < self.mss { 0 } else { self.mss };
        self.cwnd.saturating_sub(len).saturating_add(more).max(self.mss)
    }

    // An acknowledgement of `len` bytes, but not of all that was sent before a loss.
    fn gain_in_part(&mut self, len: usize) {
        if self.in_recovery {
            self.cwnd = self.deflated(len);
        } else {
            self.gain(len);
        }
    }

    // Bytes are acknowledged, which ends a time of timeouts and a fast recovery, and opens the window so far.
    pub(crate) fn grow(&mut self, more: usize) {
        self.cwnd =
            if self.in_recovery { self.ssthresh } else { self.bounded(self.cwnd.saturating_add(more)) };
        self.in_timeout = false;
        self.in_recovery = false;
    }

    // An acknowledgement of `len` bytes.
    fn gain(&mut self, len: usize) {
        if len == 0 {
            return;
        }
        self.grow(self.growth(len));
    }

    // An acknowledgement of `len` bytes, counted in bytes.
    fn count(&mut self, len: usize, careful: bool) {
        if len > 0 {
            self.grow(self.growth_in_bytes(len, careful));
        }
    }
}

impl Controller for Reno {
    fn window(&self) -> usize {
        self.cwnd
    }

    fn set_remote_window(&mut self, remote_window: usize) {
        self.rwnd = self.rwnd.max(remote_window);
    }

    fn on_ack(&mut self, _now: Instant, len: usize, _in_flight: usize, _rtt: &RttEstimator) {
        self.gain(len);
    }

    fn on_partial_ack(&mut self, _now: Instant, len: usize) {
        self.gain_in_part(len);
    }

    fn on_bytes_acked(&mut self, _now: Instant, len: usize, careful: bool, _rtt: &RttEstimator) {
        self.count(len, careful);
    }

    fn restart(&mut self) {
        self.cwnd = self.cwnd.min(self.initial_window());
    }

    fn open(&mut self, mss: usize) {
        self.mss = mss.max(1);
        self.cwnd = self.initial_window();
    }

    fn on_dup_ack(&mut self, _now: Instant, len: usize, _in_flight: usize) {
        if self.in_recovery {
            self.cwnd = self.bounded(self.cwnd.saturating_add(len));
        }
    }

    fn on_rto(&mut self, _now: Instant, in_flight: usize) {
        self.begin_anew(self.halved(in_flight));
    }

    fn on_loss(&mut self, _now: Instant, in_flight: usize) {
        if self.in_recovery {
            return;
        }
        self.recover(self.halved(in_flight));
    }

    fn pre_transmit(&mut self, _now: Instant) {}

    fn post_transmit(&mut self, _now: Instant, _len: usize) {}

    fn set_mss(&mut self, mss: usize) {
        self.mss = mss;
    }
}
