// Made from crates/sock_tcp/src/reordering.rt by rust/translate: change it there.
//! How much longer a loss is waited for once segments came late and were not lost, by the RFCs' rules (RFC 8985,
//! section 6.2): what tells of a loss then sets the retransmission timer, and when that is over the hole goes out
//! again.

use crate::proved::net_base::time::{Duration, Instant};
use crate::proved::sock_core::rtte::RttEstimator;
use crate::proved::sock_tcp::control_block::ControlBlock;
use crate::proved::sock_tcp::recovery::Before;
use crate::proved::sock_tcp::scoreboard::Scoreboard;
use crate::proved::sock_tcp::tail::sooner;
use crate::proved::sock_tcp::timer::{Timer, after};

// Where so many quarters of a round trip are waited for, and at least one: the third duplicate, or more than two
// segments behind a hole at SND.UNA, told of a loss.
fn is_told(quarters: u8, duplicates: u8, sacked: &Scoreboard, mss: usize) -> bool {
    quarters != 0 && (2 < duplicates || 2 * (mss as u64) < sacked.told_before(1 << 32))
}

// So many quarters of a round trip, and at most as long as a retransmission.
fn late_wait(quarters: u8, rtte: &RttEstimator) -> Duration {
    let wait = quarters as u64 * (rtte.srtt() as u64 * 250);
    let timeout = rtte.retransmission_timeout();
    Duration { micros: wait.min(timeout.micros) }
}

impl Timer {
    // It is over so long from now, where a loss is waited for, and no later than it was.
    fn or_late(self, waits: bool, now: Instant, wait: Duration) -> Timer {
        match (waits, self) {
            (true, Timer::Retransmit { expires_at }) => {
                Timer::Retransmit { expires_at: sooner(expires_at, after(now, wait)) }
            }
            _ => self,
        }
    }
}

impl Before {
    // How many quarters of a round trip a loss is waited for: one more for each fast recovery that was for nothing.
    pub(crate) fn reordering_after(&self, after: &ControlBlock<'_>) -> u8 {
        if self.is_undone(after) && after.undo.get().window != 0 {
            after.reordering.min(3) + 1
        } else {
            after.reordering
        }
    }

    // A loss was told, and is waited for.
    pub(crate) fn is_waited(&self, after: &ControlBlock<'_>) -> bool {
        let quarters = self.reordering_after(after);
        if quarters == 0 {
            return false;
        }
        let sacked = self.sacked_after(after);
        is_told(quarters, self.duplicates_after(after), &sacked, after.remote_mss)
    }

    // A loss is waited for from now on, with the next hole behind SND.UNA.
    fn waits_late(&self, after: &ControlBlock<'_>) -> bool {
        self.is_waited(after) && (after.may_resend() && self.recovery_after(after).is_over())
    }

    // The timer that waits for news of the peer, where a loss may be waited for.
    pub(crate) fn with_late(&self, after: &ControlBlock<'_>, timer: Timer, now: Instant) -> Timer {
        let waits = self.waits_late(after);
        timer.or_late(waits, now, late_wait(self.reordering_after(after), &after.rtte))
    }
}

impl<'a> ControlBlock<'a> {
    // A loss was told, and is waited for.
    pub(crate) fn is_late(&self) -> bool {
        is_told(self.reordering, self.local_rx_dup_acks, &self.sacked.get(), self.remote_mss)
            && (self.may_resend() && self.recovery.get().is_over())
    }

    // What is no longer in the network, where reordering was seen.
    pub(crate) fn told_late(&self) -> usize {
        if self.reordering == 0 { 0 } else { self.sacked.get().told_before(1 << 32) as usize }
    }
}
