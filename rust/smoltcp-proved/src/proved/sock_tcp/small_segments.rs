// Made from crates/sock_tcp/src/small_segments.rt by rust/translate: change it there.
//! Which small segments wait by the RFCs' rules, and how long (RFC 9293, section 3.8.6.2.1).

use crate::proved::net_base::time::Instant;
use crate::proved::sock_core::PollAt;
use crate::proved::sock_tcp::control_block::ControlBlock;
use crate::proved::sock_tcp::poll::earlier;
use crate::proved::sock_tcp::recovery::{Before, Recovery};
use crate::proved::sock_tcp::rules::Rules;
use crate::proved::sock_tcp::state::State;

impl Recovery {
    // What goes out at SND.UNA may have been sent before.
    fn sends_again(self) -> bool {
        matches!(self, Recovery::Fast { .. } | Recovery::Timeout { .. })
    }
}

fn moment_at(at: Option<Instant>) -> PollAt {
    match at {
        None => PollAt::Ingress,
        Some(at) => PollAt::Time(at),
    }
}

impl<'a> ControlBlock<'a> {
    // Whether one may wait with nothing in flight: the peer told a window of more than twice this one, and none of it
    // may have been sent before.
    fn waits_alone(&self) -> bool {
        self.remote_win_len < self.largest_window / 2
            && (self.has_idle_at && !self.recovery.get().sends_again())
    }

    // Whether the peer's window makes the next segment smaller than one of `mss` bytes, or the congestion window does
    // of half as many: it waits for an acknowledgement, for a larger window, or for the moment at which it goes out.
    // Both windows let out so much.
    #[inline(never)]
    fn is_cut(&self, out: usize, mss: usize) -> bool {
        self.is_cut_by_network(out, mss) || self.is_cut_by_window(mss)
    }

    fn is_cut_by_network(&self, out: usize, mss: usize) -> bool {
        if out >= mss / 2 {
            return false;
        }
        let flight = self.flight();
        let usable = self.remote_win_len.min(self.tx_buffer.len());
        out < usable.saturating_sub(flight) && flight != 0
    }

    fn is_cut_by_window(&self, mss: usize) -> bool {
        let flight = self.flight();
        let usable = self.remote_win_len.saturating_sub(flight);
        self.remote_win_len < self.tx_buffer.len()
            && ((flight != 0 || self.waits_alone()) && (usable < mss && usable <= self.congestion_left()))
    }

    #[inline(always)]
    pub(crate) fn is_cut_short(&self, out: usize, mss: usize) -> bool {
        match crate::kit::in_force(self.rules) {
            Rules::Smoltcp => false,
            Rules::Rfc => self.is_cut(out, mss),
        }
    }

    // From when on what may go out with nothing in flight does so.
    fn small_poll(&self) -> PollAt {
        if self.flight() == 0 && self.sendable() != 0 { moment_at(self.idle_at()) } else { PollAt::Ingress }
    }

    // From when on an acknowledgement goes out, or bytes that wait. By smoltcp's rules, which each poll asks, this
    // spares a call of its own.
    #[inline(always)]
    pub(crate) fn held_poll(&self) -> PollAt {
        match crate::kit::in_force(self.rules) {
            Rules::Smoltcp => self.ack_poll(),
            Rules::Rfc => self.held_by_rfc(),
        }
    }

    #[inline(never)]
    fn held_by_rfc(&self) -> PollAt {
        earlier(self.ack_poll(), self.small_poll())
    }
}

impl Before {
    // The largest window that the peer told, from the segment on that opens.
    pub(crate) fn largest_after(&self, after: &ControlBlock<'_>) -> usize {
        match self.state {
            State::Listen | State::SynSent => after.remote_win_len,
            _ => after.largest_window.max(after.remote_win_len),
        }
    }
}
