// Made from crates/sock_tcp/src/checks.rt by rust/translate: change it there.
//! What the RFCs' rules ask of a segment before its acknowledgement (RFC 5961, sections 3.2 and 4.2; RFC 1337; RFC
//! 7323, section 5).

use crate::proved::control_wire::{TcpControl, TcpRepr, TcpSeqNumber, TcpTimestampRepr};
use crate::proved::net_base::time::{Duration, Instant};
use crate::proved::sock_core::seq::before;
use crate::proved::sock_tcp::advance::Next;
use crate::proved::sock_tcp::control_block::ControlBlock;
use crate::proved::sock_tcp::explain::Row;
use crate::proved::sock_tcp::rules::Rules;
use crate::proved::sock_tcp::state::State;
use crate::proved::sock_tcp::timer::{Timer, after, is_over};
use crate::proved::sock_tcp::verdict::Verdict;
use crate::proved::sock_tcp::window::Window;

// For so long a timestamp counts without a segment: 24 days.
const RECENT_LIFE: Duration = Duration { micros: 2_073_600_000_000 };

// An RST counts at RCV.NXT alone.
fn check_rst(window: Window, number: TcpSeqNumber) -> Next {
    if number == window.start {
        Next::Continue
    } else if window.starts_inside(number) {
        Next::Challenge
    } else {
        Next::Stop
    }
}

// Whether `tsval` lies before the timestamp `recent`.
fn is_older(tsval: u32, recent: u32) -> bool {
    before(TcpSeqNumber(tsval), TcpSeqNumber(recent))
}

impl<'a> ControlBlock<'a> {
    // Whether no segment came for so long that the last timestamp says nothing.
    fn is_forgotten(&self, now: Instant) -> bool {
        match self.remote_last_ts() {
            None => true,
            Some(at) => is_over(after(at, RECENT_LIFE), now),
        }
    }

    // Where timestamps were agreed, a segment with an older one is answered. One without is taken: keep-alives of lwIP
    // have none.
    fn check_stamp(&self, now: Instant, timestamp: Option<TcpTimestampRepr>) -> Next {
        match (self.stamps, timestamp) {
            (true, Some(came)) if is_older(came.tsval, self.last_remote_tsval) && !self.is_forgotten(now) => {
                Next::Challenge
            }
            _ => Next::Continue,
        }
    }

    // SND.NXT does not count a probe: the byte at SND.UNA, with a FIN where that is the last one.
    fn probe_places(&self) -> usize {
        match self.timer {
            Timer::ZeroWindowProbe { .. } if self.tx_buffer.len() == 1 => 1 + self.fin_place(),
            Timer::ZeroWindowProbe { .. } => 1,
            _ => 0,
        }
    }

    // The number behind all that was sent.
    fn sent_end(&self) -> TcpSeqNumber {
        let highest = self.recovery.get().highest(self.remote_last_seq);
        highest.plus(self.probe_places())
    }

    // It acknowledges what was never sent.
    fn acks_unsent(&self, ack: Option<TcpSeqNumber>) -> bool {
        match ack {
            None => false,
            Some(ack) => before(self.sent_end(), ack),
        }
    }

    fn check_ack(&self, now: Instant, repr: &TcpRepr<'_>) -> Next {
        if self.acks_unsent(repr.ack_number) {
            Next::Challenge
        } else {
            self.check_stamp(now, repr.timestamp)
        }
    }

    // By state and control bit.
    fn check(&self, now: Instant, repr: &TcpRepr<'_>) -> Next {
        match (self.state, repr.control) {
            (State::Listen | State::SynSent, _) => Next::Continue,
            (State::TimeWait, TcpControl::Rst) => Next::Stop,
            (_, TcpControl::Rst) => check_rst(self.honored_window(), repr.seq_number),
            (State::SynReceived, TcpControl::Syn) => self.check_stamp(now, repr.timestamp),
            (_, TcpControl::Syn) => Next::Challenge,
            (State::SynReceived, _) => self.check_stamp(now, repr.timestamp),
            _ => self.check_ack(now, repr),
        }
    }

    // By the RFCs' rules.
    #[inline(never)]
    fn checked_verdict(&self, now: Instant, repr: &TcpRepr<'_>) -> Verdict {
        match self.check(now, repr) {
            Next::Stop => Verdict::Drop,
            Next::Challenge => Verdict::Challenge,
            Next::Continue => self.verdict(repr.control, self.ack_heeded(repr)),
        }
    }

    // By the socket's rules.
    #[inline(always)]
    pub(crate) fn verdict_by_rules(&self, now: Instant, repr: &TcpRepr<'_>) -> Verdict {
        match crate::kit::in_force(self.rules) {
            Rules::Smoltcp => self.verdict(repr.control, repr.ack_number),
            Rules::Rfc => self.checked_verdict(now, repr),
        }
    }

    // What a segment is challenged for that is neither an RST nor a SYN, once the own SYN is acknowledged.
    fn unsent_row(&self, now: Instant, repr: &TcpRepr<'_>) -> Row {
        if self.acks_unsent(repr.ack_number) {
            return Row::AckUnsent;
        }
        match self.check_stamp(now, repr.timestamp) {
            Next::Challenge => Row::OldTimestamp,
            _ => Row::AckUnsent,
        }
    }

    // What a segment is challenged for.
    pub(crate) fn challenged_row(&self, now: Instant, repr: &TcpRepr<'_>) -> Row {
        match (crate::kit::in_force(self.rules), self.state, repr.control) {
            (Rules::Smoltcp, _, _) => Row::AckUnsent,
            (Rules::Rfc, _, TcpControl::Rst) => Row::ResetChallenged,
            (Rules::Rfc, State::SynReceived, _) => Row::OldTimestamp,
            (Rules::Rfc, _, TcpControl::Syn) => Row::SynChallenged,
            (Rules::Rfc, _, _) => self.unsent_row(now, repr),
        }
    }
}
