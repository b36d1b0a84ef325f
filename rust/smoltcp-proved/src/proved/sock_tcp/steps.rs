// Made from crates/sock_tcp/src/steps.rt by rust/translate: change it there.
//! The steps of `process` behind the state table, one method each (RFC 9293, section 3.10.7.4).

use crate::proved::control_wire::{TcpControl, TcpRepr, TcpSeqNumber};
use crate::proved::net_base::time::Instant;
use crate::proved::sock_core::congestion::Controller;
use crate::proved::sock_core::seq::{before, later, not_after};
use crate::proved::sock_tcp::acked::Acked;
use crate::proved::sock_tcp::control_block::ControlBlock;
use crate::proved::sock_tcp::kept::DelayKind;
use crate::proved::sock_tcp::rules::Rules;
use crate::proved::sock_tcp::timer::{AckDelayTimer, Timer, after};

// As many duplicates of an acknowledgement call for a fast retransmission (RFC 5681, section 3.2).
const DUPLICATES: u8 = 3;

// The interval of probes goes on to double, by the RFCs' rules, where the byte of one is acknowledged.
fn goes_on_probing(rules: Rules, timer: Timer) -> bool {
    match (rules, timer) {
        (Rules::Rfc, Timer::ZeroWindowProbe { .. }) => true,
        _ => false,
    }
}

impl<'a> ControlBlock<'a> {
    // The peer's window: whether it is another than before.
    fn take_window(&mut self, now: Instant, control: TcpControl, field: u16) -> bool {
        let scale = self.remote_win_scale.unwrap_or(0);
        let window = match control {
            TcpControl::Syn => field as usize,
            _ => (field as usize) << scale,
        };
        let changed = window != self.remote_win_len;
        self.has_remote_last_ts = true;
        self.remote_last_ts = now;
        self.remote_win_len = window;
        self.congestion_controller.set_remote_window(window);
        changed
    }

    fn release(&mut self, count: usize) {
        self.tx_buffer.dequeue_allocated(count);
    }

    pub(crate) fn is_duplicate(&self, ack: TcpSeqNumber, length: usize, changed: bool) -> bool {
        let is_last = match self.local_rx_last_ack() {
            None => false,
            Some(last) => last == ack,
        };
        is_last && before(ack, self.remote_last_seq) && length == 0 && !changed
    }

    fn count_duplicate(&mut self, now: Instant) {
        self.local_rx_dup_acks = self.local_rx_dup_acks.saturating_add(1);
        if self.local_rx_dup_acks == DUPLICATES {
            self.timer = Timer::FastRetransmit;
        }
        let flight = self.flight();
        self.congestion_controller.on_dup_ack(now, self.remote_mss, flight);
    }

    fn count_ack(&mut self, now: Instant, ack: TcpSeqNumber, count: usize) {
        self.local_rx_dup_acks = 0;
        self.has_local_rx_last_ack = true;
        self.local_rx_last_ack = ack;
        self.rtte.on_ack(now, ack);
        let flight = self.flight().saturating_sub(count);
        self.congestion_controller.on_ack(now, count, flight, &self.rtte);
    }

    fn advance_una(&mut self, ack: TcpSeqNumber) {
        self.local_seq_no = ack;
        self.remote_last_seq = later(self.remote_last_seq, ack);
    }

    // The acknowledgement of `count` bytes, on a segment with `length` bytes of payload.
    fn acknowledge(
        &mut self,
        ack: Option<TcpSeqNumber>,
        now: Instant,
        count: usize,
        length: usize,
        changed: bool,
    ) {
        let ack = match ack {
            None => return,
            Some(ack) => ack,
        };
        if self.is_duplicate(ack, length, changed) {
            self.count_duplicate(now);
        } else {
            self.count_ack(now, ack, count);
        }
        self.advance_una(ack);
    }

    // Whether it is a SYN, or its number lies not behind the acknowledgement that was sent last.
    fn moves_recent(&self, repr: &TcpRepr<'_>) -> bool {
        match (repr.control, self.remote_last_ack) {
            (TcpControl::Syn, _) | (_, None) => true,
            (_, Some(last)) => not_after(repr.seq_number, last),
        }
    }

    fn take_timestamp(&mut self, repr: &TcpRepr<'_>) {
        match (repr.timestamp, crate::kit::in_force(self.rules)) {
            (None, _) => {}
            (Some(_), Rules::Rfc) if !self.moves_recent(repr) => {}
            (Some(timestamp), _) => self.last_remote_tsval = timestamp.tsval,
        }
        self.note_window(repr);
    }

    // The timer after an acknowledgement.
    fn timer_acked(&self, now: Instant, acked: Acked) -> Timer {
        match self.timer {
            Timer::Idle { .. } => Timer::idle(now, self.keep_alive()),
            Timer::Retransmit { .. } | Timer::FastRetransmit => {
                if acked.all {
                    Timer::idle(now, self.keep_alive())
                } else if acked.len == 0 {
                    self.timer
                } else {
                    Timer::retransmit(now, &self.rtte)
                }
            }
            Timer::ZeroWindowProbe { .. } | Timer::Close { .. } => self.timer,
        }
    }

    fn begins_probe(&self, timer: Timer, acked: Acked) -> bool {
        let goes_on = goes_on_probing(crate::kit::in_force(self.rules), timer);
        !self.tx_buffer.is_empty() && (timer.is_idle() || (acked.len != 0 && !goes_on))
    }

    // Probes begin while the peer has no window, and end when it has one.
    fn probe_set(&self, timer: Timer, now: Instant, acked: Acked) -> Timer {
        match (self.remote_win_len, timer) {
            (0, _) if self.begins_probe(timer, acked) => Timer::probe(now, &self.rtte),
            (0, _) => timer,
            (_, Timer::ZeroWindowProbe { .. }) => Timer::idle(now, self.keep_alive()),
            _ => timer,
        }
    }

    fn set_timer(&mut self, now: Instant, acked: Acked) {
        let timer = self.timer_acked(now, acked);
        self.timer = self.probe_set(timer, now, acked);
    }

    // The steps behind the state table, up to the timer.
    pub(crate) fn hear(&mut self, now: Instant, acked: Acked, repr: &TcpRepr<'_>) {
        let changed = self.take_window(now, repr.control, repr.window_len);
        self.release(acked.len);
        self.acknowledge(repr.ack_number, now, acked.len, repr.payload.len(), changed);
        self.take_timestamp(repr);
        self.set_timer(now, acked);
    }

    // The bytes join the queue, or are held, or are refused: whether they were taken.
    pub(crate) fn join(&mut self, offset: usize, bytes: &[u8]) -> bool {
        self.rx_buffer.take_in(offset, bytes)
    }

    // Whether the last acknowledgement sent, and `count` bytes behind it, lie before RCV.NXT.
    fn is_ack_owed(&self, count: usize) -> bool {
        match self.remote_last_ack {
            None => false,
            Some(ack) => before(ack.plus(count), self.next_ack()),
        }
    }

    // More than a segment is unacknowledged.
    fn is_second(&self) -> bool {
        match crate::kit::in_force(self.rules) {
            Rules::Smoltcp => self.is_ack_owed(self.remote_mss),
            Rules::Rfc => true,
        }
    }

    pub(crate) fn delay_ack(&mut self, now: Instant) {
        let delay = match self.ack_delay() {
            None => return,
            Some(delay) => delay,
        };
        if !self.is_ack_owed(0) {
            return;
        }
        match self.ack_delay_timer() {
            AckDelayTimer::Idle => {
                self.ack_delay_kind = DelayKind::Waiting;
                self.ack_delay_until = after(now, delay);
            }
            AckDelayTimer::Waiting(_) => {
                if self.is_second() {
                    self.ack_delay_kind = DelayKind::Immediate;
                }
            }
            AckDelayTimer::Immediate => {}
        }
    }
}
