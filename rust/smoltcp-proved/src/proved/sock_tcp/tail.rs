// Made from crates/sock_tcp/src/tail.rt by rust/translate: change it there.
//! Tail-loss probes, by the RFCs' rules (RFC 8985, section 7).
//!
//! A probe of new bytes is a full segment, so that Nagle's algorithm holds none back. Else it is the last segment of
//! what is in flight, as long as the peer's MSS less a timestamp: where the own MTU makes segments shorter, the probe
//! ends before the last byte, and what is lost behind it waits for the timeout. Where the last segment was acknowledged
//! in part before its emit succeeded, the segment at SND.UNA goes out in its place. Where the timeout is earlier than
//! the probe, the probe takes its place, and the timeout comes one timeout later.

use crate::proved::control_wire::TcpSeqNumber;
use crate::proved::net_base::time::{Duration, Instant};
use crate::proved::sock_core::congestion::Controller;
use crate::proved::sock_core::rtte::RttEstimator;
use crate::proved::sock_core::seq::before;
use crate::proved::sock_tcp::control_block::ControlBlock;
use crate::proved::sock_tcp::recovery::{Before, Recovery};
use crate::proved::sock_tcp::rules::Rules;
use crate::proved::sock_tcp::scoreboard::Scoreboard;
use crate::proved::sock_tcp::timer::{Timer, after, is_over};

// How long the peer may wait with an acknowledgement, in milliseconds.
const DELAYED_ACK: u64 = 200;

// How much longer than two round trips a probe waits at least, in milliseconds.
const LEAST_MARGIN: u64 = 10;

// How long after news of the peer the probe goes out, where one segment alone is out or not.
fn tail_wait(rtte: &RttEstimator, alone: bool) -> Duration {
    let margin = if alone { DELAYED_ACK } else { LEAST_MARGIN };
    let round_trips = 2 * rtte.srtt() as u64;
    let timeout = rtte.retransmission_timeout();
    Duration { micros: ((round_trips + margin) * 1_000).min(timeout.micros) }
}

pub(crate) fn sooner(at: Instant, other: Instant) -> Instant {
    if is_over(at, other) { at } else { other }
}

impl Timer {
    // A tail-loss probe goes out so long from now.
    fn tail(now: Instant, rtte: &RttEstimator, alone: bool) -> Timer {
        Timer::Retransmit { expires_at: after(now, tail_wait(rtte, alone)) }
    }

    // The timer that waits for news of the peer is that of the probe, where one may go out.
    pub(crate) fn or_tail(self, waits: bool, now: Instant, rtte: &RttEstimator, alone: bool) -> Timer {
        match (waits, self) {
            (true, Timer::Retransmit { .. }) => Timer::tail(now, rtte, alone),
            _ => self,
        }
    }

    // It is that of the probe, where that comes sooner.
    fn with_tail(self, now: Instant, rtte: &RttEstimator, alone: bool) -> Timer {
        match self {
            Timer::Retransmit { expires_at } => {
                Timer::Retransmit { expires_at: sooner(expires_at, after(now, tail_wait(rtte, alone))) }
            }
            _ => self,
        }
    }
}

impl Recovery {
    // No loss was told, and no probe is out of which nothing was heard.
    fn is_calm(self) -> bool {
        matches!(self, Recovery::Open)
    }

    // What was sent before the probe was told up to its end, and is not acknowledged.
    fn is_told_to_end(self, sacked: &Scoreboard, una: TcpSeqNumber) -> bool {
        match self {
            Recovery::Probe { end, .. } => {
                before(una, end) && end.since(una) <= sacked.highest_told() as usize
            }
            _ => false,
        }
    }
}

impl Before {
    // A tail-loss probe shows a hole.
    pub(crate) fn is_probe_told(&self, after: &ControlBlock<'_>) -> bool {
        if !self.only_tells(after) {
            return false;
        }
        let sacked = self.sacked_after(after);
        self.recovery.is_told_to_end(&sacked, after.local_seq_no)
    }

    // Something new is acknowledged, and a tail-loss probe may follow.
    pub(crate) fn waits_tail(&self, after: &ControlBlock<'_>) -> bool {
        self.is_news(after) && after.may_probe(self.recovery_after(after))
    }
}

impl<'a> ControlBlock<'a> {
    // One segment alone is out.
    pub(crate) fn is_alone(&self) -> bool {
        self.flight() <= self.remote_mss
    }

    // Bytes are in flight to a peer that tells by SACK and has a window, and a round trip was measured.
    fn may_probe(&self, recovery: Recovery) -> bool {
        let peer = recovery.is_calm() && (self.remote_has_sack && self.state.carries_data());
        let bytes = !self.tx_buffer.is_empty() && self.flight() != 0;
        peer && (bytes && (self.remote_win_len != 0 && self.rtte.is_measured()))
    }

    // A loss was waited for, or a probe may go out.
    fn may_speak(&self) -> bool {
        self.is_late() || self.may_probe(self.recovery.get())
    }

    // Whether it may send where the retransmission timer is over.
    pub(crate) fn may_speak_now(&self) -> bool {
        match crate::kit::in_force(self.rules) {
            Rules::Smoltcp => false,
            Rules::Rfc => self.may_speak(),
        }
    }

    // What goes out as a probe, where it is the last segment again, and whether it is.
    fn probe(&self, again: bool) -> Recovery {
        let full = self.remote_mss.saturating_sub(self.timestamp_room());
        let last = self.flight().min(full);
        Recovery::Probe {
            start: self.local_seq_no.plus(self.flight() - last),
            end: self.remote_last_seq,
            again,
        }
    }

    // A segment with so many numbers went out: a probe is waited for from now on, and no longer than before.
    pub(crate) fn arm_tail(&mut self, now: Instant, len: usize) {
        let may = match crate::kit::in_force(self.rules) {
            Rules::Smoltcp => false,
            Rules::Rfc => len != 0 && self.may_probe(self.recovery.get()),
        };
        if may {
            let alone = self.is_alone();
            self.timer = self.timer.with_tail(now, &self.rtte, alone);
        }
    }

    // A fast recovery begins with the segment at SND.UNA; then the retransmission timer runs.
    fn begin_recovery(&mut self, now: Instant) {
        let flight = self.flight_lost();
        self.undo.set(self.undo.get().marked(crate::kit::in_force(self.rules), &self.congestion_controller));
        self.congestion_controller.on_loss(now, flight);
        self.recovery.set(Recovery::Fast {
            point: self.remote_last_seq,
            high_rxt: self.local_seq_no,
            resent_at: self.remote_last_seq,
            acked: false,
            trailed: false,
            una_lost: false,
        });
        self.pending_fast_retransmit = true;
        self.rtte.on_retransmit();
        self.timer = Timer::retransmit(now, &self.rtte);
    }

    // A segment of new bytes is to go out, or the last one again; then the retransmission timer runs.
    fn begin_probe_of_tail(&mut self, now: Instant) {
        self.recovery.set(self.probe(false));
        let none = self.sendable() < self.remote_mss.max(1);
        let again = self.pending_fast_retransmit || none;
        self.recovery.set(self.probe(again));
        self.pending_fast_retransmit = again;
        self.rtte.on_retransmit();
        self.timer = Timer::retransmit(now, &self.rtte);
    }

    // The hole goes out for which a loss was waited, or a probe.
    pub(crate) fn probe_tail(&mut self, now: Instant) {
        if self.is_late() { self.begin_recovery(now) } else { self.begin_probe_of_tail(now) }
    }
}
