// Made from crates/sock_tcp/src/due.rt by rust/translate: change it there.
//! Whether a dispatch has anything to send (RFC 9293, section 3.8).

use crate::proved::control_wire::TcpSeqNumber;
use crate::proved::control_wire::tcp::sack_count;
use crate::proved::ip_wire::IpAddress;
use crate::proved::sock_core::congestion::Controller;
use crate::proved::sock_core::seq::before;
use crate::proved::sock_core::{Context, PollAt};
use crate::proved::sock_tcp::control_block::ControlBlock;
use crate::proved::sock_tcp::poll::is_reached;
use crate::proved::sock_tcp::recovery::Recovery;
use crate::proved::sock_tcp::rules::Rules;
use crate::proved::sock_tcp::tuple::Tuple;

// How much of each segment a timestamp takes.
const TIMESTAMP_ROOM: usize = 12;

// And three ranges with it.
const MOST_OPTIONS: usize = 36;

// Over IPv6 less counts as this: its links carry 1280 bytes (RFC 8200, section 5).
const LEAST_IPV6_MTU: usize = 576;

// The MSS that this side may receive (RFC 6691).
pub(crate) fn own_mss<C: Context>(cx: &C, tuple: &Tuple) -> usize {
    let mtu = cx.ip_mtu();
    match tuple.local.addr {
        IpAddress::Ipv4(_) => mtu - 20 - 20,
        IpAddress::Ipv6(_) => mtu.max(LEAST_IPV6_MTU) - 40 - 20,
    }
}

impl<'a> ControlBlock<'a> {
    // How much of each segment a timestamp option takes.
    #[inline(always)]
    pub(crate) fn timestamp_room(&self) -> usize {
        if self.stamps { TIMESTAMP_ROOM } else { 0 }
    }

    // A segment that is no reply tells what is held, with this own MSS.
    #[inline(always)]
    pub(crate) fn tells_ranges(&self, own: usize) -> bool {
        match crate::kit::in_force(self.rules) {
            Rules::Smoltcp => false,
            Rules::Rfc => self.remote_has_sack && !self.rx_buffer.holds_nothing() && own > MOST_OPTIONS,
        }
    }

    // How much of each segment the ranges take, with a timestamp.
    #[inline(never)]
    fn ranges_room(&self) -> usize {
        let stamp = if self.stamps { 10 } else { 0 };
        let count = sack_count(&self.sack_ranges());
        let ranges = if count == 0 { 0 } else { 2 + 8 * count };
        (stamp + ranges + 3) / 4 * 4
    }

    // How many bytes a segment carries, with this own MSS. Not inlined, and the context is not handed over, so that by
    // smoltcp's rules it need not lie in memory.
    #[inline(never)]
    fn rfc_mss(&self, own: usize) -> usize {
        let room = if self.tells_ranges(own) { self.ranges_room() } else { self.timestamp_room() };
        own.min(self.remote_mss).saturating_sub(room)
    }

    pub(crate) fn effective_mss<C: Context>(&self, cx: &C, tuple: &Tuple) -> usize {
        let own = own_mss(cx, tuple);
        match crate::kit::in_force(self.rules) {
            Rules::Smoltcp => {
                let mss = own.min(self.remote_mss);
                mss.saturating_sub(self.timestamp_room())
            }
            Rules::Rfc => self.rfc_mss(own),
        }
    }

    // How much was sent and is not acknowledged.
    pub(crate) fn flight(&self) -> usize {
        self.remote_last_seq.since(self.local_seq_no)
    }

    // What the first two duplicates let out beyond the congestion window, a segment each (RFC 3042), or what was told
    // while a loss is waited for, or a tail-loss probe of new bytes.
    fn limited(&self) -> usize {
        match (crate::kit::in_force(self.rules), self.recovery.get()) {
            (Rules::Rfc, Recovery::Probe { again: false, .. }) => self.remote_mss,
            (Rules::Rfc, Recovery::Open) | (Rules::Rfc, Recovery::Probe { .. }) => {
                ((self.local_rx_dup_acks.min(2) as usize) * self.remote_mss).max(self.told_late())
            }
            _ => 0,
        }
    }

    // What the congestion window leaves. By smoltcp's rules, which each dispatch asks, this spares a call of its own.
    #[inline(always)]
    pub(crate) fn congestion_left(&self) -> usize {
        match crate::kit::in_force(self.rules) {
            Rules::Smoltcp => {
                let window = self.congestion_controller.window();
                window.saturating_sub(self.flight())
            }
            Rules::Rfc => self.congestion_left_by_rfc(),
        }
    }

    #[inline(never)]
    fn congestion_left_by_rfc(&self) -> usize {
        if self.is_counted() {
            return self.recovery_left();
        }
        let window = self.congestion_controller.window();
        window.saturating_sub(self.flight().saturating_sub(self.limited()))
    }

    // What of the transmit queue both windows let go out.
    pub(crate) fn sendable(&self) -> usize {
        self.remote_win_len
            .min(self.tx_buffer.len())
            .saturating_sub(self.flight())
            .min(self.congestion_left())
    }

    // Nagle: a small segment waits while bytes are in flight (RFC 9293, section 3.7.4). Both windows let out so much.
    fn waits_by_nagle(&self, out: usize, mss: usize) -> bool {
        self.nagle && self.flight() != 0 && out < mss && !self.state.is_closing()
    }

    pub(crate) fn is_held_back(&self, out: usize, mss: usize) -> bool {
        self.waits_by_nagle(out, mss) || self.is_cut_short(out, mss)
    }

    #[inline(always)]
    pub(crate) fn data_due<C: Context>(&self, cx: &C, tuple: &Tuple) -> bool {
        if self.tx_buffer.is_empty() {
            return self.control_due();
        }
        self.data_due_by(self.effective_mss(cx, tuple))
    }

    // Whether data is due, in segments of up to so many bytes.
    #[inline(always)]
    pub(crate) fn data_due_by(&self, mss: usize) -> bool {
        if self.tx_buffer.is_empty() {
            return self.control_due();
        }
        let marked = self.pending_fast_retransmit;
        let out = self.sendable();
        let some = out != 0 && !self.is_held_back(out, mss);
        marked || some || self.control_due()
    }

    // Whether a SYN or a FIN is due: all that can be while nothing is queued, as in most sockets that are asked.
    fn control_due(&self) -> bool {
        let syn = self.state.is_opening() && self.flight() == 0;
        let end = self.local_seq_no.plus(self.tx_buffer.len());
        let fin = self.state.is_closing() && self.remote_last_seq == end;
        syn || fin
    }

    fn ack_due(&self) -> bool {
        match self.remote_last_ack {
            None => false,
            Some(ack) => before(ack, self.next_ack()),
        }
    }

    // From when on an acknowledgement goes out.
    pub(crate) fn ack_poll(&self) -> PollAt {
        if self.ack_due() { self.ack_delay_timer().poll_at() } else { PollAt::Ingress }
    }

    // The window field that would tell what is left of the window sent last, up to this edge.
    fn field_left(&self, edge: TcpSeqNumber) -> usize {
        let next = self.next_ack();
        if before(edge, next) { 0 } else { (edge.since(next) >> self.remote_win_shift).min(65535) }
    }

    fn is_doubled(&self) -> bool {
        let ack = match self.remote_last_ack {
            None => return false,
            Some(ack) => ack,
        };
        let edge = ack.plus((self.remote_last_win as usize) << self.remote_win_shift);
        let field = self.space_field() as usize;
        field != 0 && field / 2 >= self.field_left(edge)
    }

    // Whether the window has at least doubled since it was sent, and its right edge may move on.
    pub(crate) fn window_doubled(&self) -> bool {
        self.state.tells_window() && self.is_doubled() && self.may_grow()
    }

    // The reasons to send, in their order.
    pub(crate) fn is_due<C: Context>(&self, cx: &C, tuple: &Tuple) -> bool {
        let now = cx.now();
        self.data_due(cx, tuple)
            || is_reached(self.held_poll(), now)
            || self.window_doubled()
            || self.state.is_closed()
            || self.timer.is_keep_alive_over(now)
            || self.timer.is_probe_over(now)
    }
}
