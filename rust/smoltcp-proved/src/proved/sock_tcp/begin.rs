// Made from crates/sock_tcp/src/begin.rt by rust/translate: change it there.
//! How a dispatch begins (RFC 9293, section 3.8; RFC 6298, section 5; RFC 5681, section 3.2).

use crate::proved::net_base::time::Instant;
use crate::proved::sock_core::Context;
use crate::proved::sock_core::congestion::Controller;
use crate::proved::sock_tcp::control_block::ControlBlock;
use crate::proved::sock_tcp::poll::is_reached;
use crate::proved::sock_tcp::rules::Rules;
use crate::proved::sock_tcp::scoreboard::NOTHING_TOLD;
use crate::proved::sock_tcp::state::State;
use crate::proved::sock_tcp::timer::{Timer, is_over};
use crate::proved::sock_tcp::tuple::Tuple;

// Whether the interface still has the local address of the connection.
pub(crate) fn has_local_address<C: Context>(cx: &C, tuple: &Tuple) -> bool {
    cx.has_ip_addr(tuple.local.addr)
}

impl<'a> ControlBlock<'a> {
    // The user timeout counts from the last segment that was heard (`take_window`), and, where none was since the
    // connection was asked for or since bytes joined an empty queue, from the first dispatch after that.
    fn set_last_ts(&mut self, now: Instant) {
        if !self.has_remote_last_ts {
            self.has_remote_last_ts = true;
            self.remote_last_ts = now;
        }
    }

    // The controller is told that a segment may go out.
    fn set_last_ts_and_tell(&mut self, now: Instant) {
        self.set_last_ts(now);
        self.congestion_controller.pre_transmit(now);
    }

    // All behind SND.UNA is sent again, also what was told by SACK. The timer is idle until a segment goes out, or by
    // the RFCs' rules a window is probed for; it is not over any longer: where the window lets nothing out now, a timer
    // that stays over would want the next dispatch at once, again and again.
    fn begin_retransmission(&mut self, now: Instant) {
        let flight = self.flight();
        self.undo.set(self.undo.get().timed_out(
            crate::kit::in_force(self.rules),
            self.recovery.get(),
            &self.congestion_controller,
        ));
        self.congestion_controller.on_rto(now, flight);
        self.recovery
            .set(self.recovery.get().timed_out(crate::kit::in_force(self.rules), self.remote_last_seq));
        self.sacked.set(NOTHING_TOLD);
        self.remote_last_seq = self.local_seq_no;
        self.rtte.on_rto();
        self.rtte.on_retransmit();
        self.timer = self.timer_begun(now);
    }

    // What of the queue the peer's window lets out.
    fn usable(&self) -> usize {
        self.remote_win_len.min(self.tx_buffer.len())
    }

    // What was in flight when a loss is told: by the RFCs' rules what both windows let out, also where the host heard
    // many segments and has not let it out yet, without what went out beyond the congestion window.
    pub(crate) fn flight_lost(&self) -> usize {
        let flight = self.flight();
        match crate::kit::in_force(self.rules) {
            Rules::Smoltcp => flight,
            Rules::Rfc => flight.max(self.usable()).min(self.congestion_controller.window()),
        }
    }

    // The timer once a fast retransmission is due.
    fn timer_marked(&self, now: Instant) -> Timer {
        match crate::kit::in_force(self.rules) {
            Rules::Smoltcp => Timer::idle(now, self.keep_alive()),
            Rules::Rfc => Timer::retransmit(now, &self.rtte),
        }
    }

    // A fast retransmission is marked.
    fn mark_fast_retransmission(&mut self, now: Instant) {
        let flight = self.flight_lost();
        self.undo.set(self.undo.get().marked(crate::kit::in_force(self.rules), &self.congestion_controller));
        self.congestion_controller.on_loss(now, flight);
        self.pending_fast_retransmit = true;
        self.rtte.on_retransmit();
        self.timer = self.timer_marked(now);
    }

    // A window is to be probed for: by the RFCs' rules with the byte at SND.UNA.
    fn begin_probe(&mut self) {
        if let Rules::Rfc = crate::kit::in_force(self.rules) {
            self.recovery
                .set(self.recovery.get().timed_out(crate::kit::in_force(self.rules), self.remote_last_seq));
            self.remote_last_seq = self.local_seq_no;
            self.rtte.on_retransmit();
        }
    }

    // What the moments that have passed change.
    #[inline(always)]
    fn heed_timers(&mut self, now: Instant) {
        if is_reached(self.timeout_poll(), now) {
            self.state = State::Closed;
            return;
        }
        match self.timer {
            Timer::Retransmit { expires_at } => {
                if is_over(expires_at, now) {
                    if self.may_speak_now() {
                        self.probe_tail(now);
                    } else {
                        self.begin_retransmission(now);
                    }
                }
            }
            Timer::FastRetransmit => self.mark_fast_retransmission(now),
            Timer::ZeroWindowProbe { expires_at, .. } => {
                if is_over(expires_at, now) {
                    self.begin_probe();
                }
            }
            _ => {}
        }
    }

    // Whether it is a SYN|ACK that waits.
    pub(crate) fn is_paused(&self) -> bool {
        matches!(self.state, State::SynReceived) && self.synack_paused
    }

    // What comes before the reasons; whether the dispatch goes on to the peer.
    fn begin<C: Context>(&mut self, cx: &C) -> bool {
        let has_address = match &self.tuple {
            None => return false,
            Some(tuple) => has_local_address(cx, tuple),
        };
        if !has_address {
            self.reset();
            return false;
        }
        let now = cx.now();
        self.set_last_ts_and_tell(now);
        self.heed_timers(now);
        !self.is_paused()
    }

    // Nothing is due: TIME-WAIT may be over.
    fn end_time_wait(&mut self, now: Instant) {
        if self.timer.is_close_over(now) {
            match crate::kit::in_force(self.rules) {
                Rules::Smoltcp => self.reset(),
                // What was received can be read.
                Rules::Rfc => self.drop_connection(),
            }
        }
    }

    // The reasons; whether something is due to the peer.
    fn look_for_reason<C: Context>(&mut self, cx: &C) -> bool {
        let due = match &self.tuple {
            None => return false,
            Some(tuple) => self.is_due(cx, tuple),
        };
        if !due {
            self.end_time_wait(cx.now());
        }
        due
    }

    // The beginning and the reasons; whether a segment goes out to the peer.
    pub(crate) fn before_emit<C: Context>(&mut self, cx: &C) -> bool {
        if !self.begin(cx) {
            return false;
        }
        self.look_for_reason(cx)
    }
}
