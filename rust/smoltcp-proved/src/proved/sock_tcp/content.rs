// Made from crates/sock_tcp/src/content.rt by rust/translate: change it there.
//! What a dispatch emits (RFC 9293, sections 3.1, 3.7 and 3.8).

use crate::proved::control_wire::{TcpControl, TcpRepr, TcpSeqNumber, TcpTimestampRepr};
use crate::proved::ip_wire::{IpAddress, IpProtocol, IpRepr, Ipv4Address, Ipv4Repr, Ipv6Repr};
use crate::proved::net_base::time::Instant;
use crate::proved::sock_core::Context;
use crate::proved::sock_tcp::control_block::ControlBlock;
use crate::proved::sock_tcp::due::own_mss;
use crate::proved::sock_tcp::emission::Kind;
use crate::proved::sock_tcp::rules::Rules;
use crate::proved::sock_tcp::scoreboard::{Hole, hole_number, hole_size, hole_start};
use crate::proved::sock_tcp::state::State;
use crate::proved::sock_tcp::tuple::Tuple;

const HOP_LIMIT: u8 = 64;

// What stands where the header will. Header and segment are filled in where they go out: handed from step to step
// they would be copied each time, which was measured.
pub(crate) const NO_HEADER: IpRepr = IpRepr::Ipv4(Ipv4Repr {
    src_addr: crate::kit::ipv4([0; 4]),
    dst_addr: crate::kit::ipv4([0; 4]),
    next_header: IpProtocol::Tcp,
    payload_len: 0,
    hop_limit: 0,
});

// The hole, where it begins within this window.
fn hole_within(hole: Option<Hole>, window: usize) -> Option<Hole> {
    match hole {
        Some(hole) if (hole.start as usize) < window => Some(hole),
        _ => None,
    }
}

impl<'a> ControlBlock<'a> {
    fn window_left(&self) -> usize {
        self.remote_win_len.saturating_sub(self.flight())
    }

    fn is_probing(&self, now: Instant) -> bool {
        self.state.carries_data()
            && !self.pending_fast_retransmit
            && self.window_left() == 0
            && self.timer.is_probe_over(now)
    }

    // What a fast retransmission sends again; where there is none, the segment at SND.UNA.
    pub(crate) fn hole(&self) -> Option<Hole> {
        match crate::kit::in_force(self.rules) {
            Rules::Smoltcp => None,
            Rules::Rfc => hole_within(
                self.recovery.get().next_hole(&self.sacked.get(), self.local_seq_no),
                self.remote_win_len,
            ),
        }
    }

    // How many bytes a fast retransmission sends again.
    fn resent_size(&self, mss: usize) -> usize {
        let hole = self.hole();
        let queued = self.tx_buffer.len();
        let size = hole_size(&hole, queued, mss);
        match crate::kit::in_force(self.rules) {
            Rules::Smoltcp => size,
            Rules::Rfc => {
                let left = self.remote_win_len.saturating_sub(hole_start(&hole, queued));
                size.min(left.max(1))
            }
        }
    }

    // How many bytes of the transmit queue are to go out.
    fn size<C: Context>(&self, cx: &C, tuple: &Tuple) -> usize {
        let mss = self.effective_mss(cx, tuple);
        if self.pending_fast_retransmit {
            self.resent_size(mss)
        } else if self.is_probing(cx.now()) {
            mss.min(1)
        } else {
            self.window_left().min(mss).min(self.congestion_left())
        }
    }

    // Where in the transmit queue they begin.
    fn offset(&self) -> usize {
        if self.pending_fast_retransmit {
            hole_start(&self.hole(), self.tx_buffer.len())
        } else {
            self.flight()
        }
    }

    // Their number.
    fn number(&self) -> TcpSeqNumber {
        if self.pending_fast_retransmit {
            hole_number(&self.hole(), self.tx_buffer.len(), self.local_seq_no)
        } else {
            self.remote_last_seq
        }
    }

    // The bytes of the transmit queue that go out, as far as they stand in one piece.
    pub(crate) fn payload<C: Context>(&self, cx: &C, tuple: &Tuple) -> &[u8] {
        let size = if self.state.carries_data() { self.size(cx, tuple) } else { 0 };
        self.tx_buffer.get_allocated(self.offset(), size)
    }

    // The window field of a SYN.
    fn unscaled_window(&self) -> u16 {
        self.rx_buffer.window().min(65535) as u16
    }

    // The timestamp option with the own clock's value.
    fn timestamp(&self, stamp: Option<u32>) -> Option<TcpTimestampRepr> {
        match stamp {
            None => None,
            Some(tsval) => Some(TcpTimestampRepr::new(tsval, self.last_remote_tsval)),
        }
    }

    pub(crate) fn plain<'s>(&self, tuple: &Tuple, stamp: Option<u32>) -> TcpRepr<'s> {
        TcpRepr {
            src_port: tuple.local.port,
            dst_port: tuple.remote.port,
            control: TcpControl::None,
            seq_number: self.remote_last_seq,
            ack_number: Some(self.next_ack()),
            window_len: self.window_field(),
            window_scale: None,
            max_seg_size: None,
            sack_permitted: false,
            sack_ranges: [None, None, None],
            timestamp: self.timestamp(stamp),
            payload: &[],
        }
    }

    fn data_control(&self, count: usize) -> TcpControl {
        if self.offset() + count != self.tx_buffer.len() {
            TcpControl::None
        } else if self.state.is_closing() {
            TcpControl::Fin
        } else if count == 0 {
            TcpControl::None
        } else {
            TcpControl::Psh
        }
    }

    // What is held, where it tells that.
    #[inline(never)]
    fn fill_rfc_ranges<C: Context>(&self, cx: &C, tuple: &Tuple, repr: &mut TcpRepr<'_>) {
        if self.tells_ranges(own_mss(cx, tuple)) {
            repr.sack_ranges = self.sack_ranges();
        }
    }

    // The ranges that are held: smoltcp's rules report none.
    #[inline(always)]
    fn fill_ranges<C: Context>(&self, cx: &C, tuple: &Tuple, repr: &mut TcpRepr<'_>) {
        match crate::kit::in_force(self.rules) {
            Rules::Smoltcp => {}
            Rules::Rfc => self.fill_rfc_ranges(cx, tuple, repr),
        }
    }

    // Data of the transmit queue.
    fn fill_data<'s>(&self, payload: &'s [u8], repr: &mut TcpRepr<'s>) {
        repr.control = self.data_control(payload.len());
        repr.seq_number = self.number();
        repr.payload = payload;
    }

    fn fill_either_syn<C: Context>(&self, cx: &C, tuple: &Tuple, repr: &mut TcpRepr<'_>) {
        repr.control = TcpControl::Syn;
        repr.seq_number = self.local_seq_no;
        repr.window_len = self.unscaled_window();
        repr.max_seg_size = Some(own_mss(cx, tuple) as u16);
    }

    fn fill_syn<C: Context>(&self, cx: &C, tuple: &Tuple, repr: &mut TcpRepr<'_>) {
        self.fill_either_syn(cx, tuple, repr);
        repr.ack_number = None;
        repr.window_scale = Some(self.remote_win_shift);
        repr.sack_permitted = true;
    }

    fn fill_syn_ack<C: Context>(&self, cx: &C, tuple: &Tuple, repr: &mut TcpRepr<'_>) {
        self.fill_either_syn(cx, tuple, repr);
        repr.window_scale = match self.remote_win_scale {
            None => None,
            Some(_) => Some(self.remote_win_shift),
        };
        repr.sack_permitted = self.remote_has_sack;
    }

    // Makes the plain segment that of the state; answers whether the state has one.
    fn fill<'s, C: Context>(&self, cx: &C, tuple: &Tuple, payload: &'s [u8], repr: &mut TcpRepr<'s>) -> bool {
        match self.state {
            State::Closed => {
                repr.control = TcpControl::Rst;
                true
            }
            State::Listen => false,
            State::SynSent => {
                self.fill_syn(cx, tuple, repr);
                true
            }
            State::SynReceived => {
                self.fill_syn_ack(cx, tuple, repr);
                true
            }
            State::FinWait2 => {
                self.fill_ranges(cx, tuple, repr);
                true
            }
            State::TimeWait => true,
            _ => {
                self.fill_data(payload, repr);
                self.fill_ranges(cx, tuple, repr);
                true
            }
        }
    }

    // What the segment is emitted for.
    fn kind(&self, now: Instant, repr: &TcpRepr<'_>) -> Kind {
        if self.is_probing(now) {
            Kind::Probe
        } else if self.timer.is_keep_alive_over(now) && repr.is_empty() {
            Kind::KeepAlive
        } else {
            Kind::Plain
        }
    }

    // The window of a keep-alive, which does not count as told: by the RFCs' rules no more than was told last.
    fn aside_field(&self, field: u16) -> u16 {
        match crate::kit::in_force(self.rules) {
            Rules::Smoltcp => field,
            Rules::Rfc => self.kept_field(),
        }
    }

    // One zero byte before SND.UNA.
    fn fill_keep_alive(&self, repr: &mut TcpRepr<'_>) {
        repr.seq_number = self.local_seq_no.minus(1);
        repr.window_len = self.aside_field(repr.window_len);
        repr.payload = &[0];
    }

    fn fill_kind(&self, kind: Kind, repr: &mut TcpRepr<'_>) {
        match kind {
            Kind::KeepAlive => self.fill_keep_alive(repr),
            Kind::Plain | Kind::Probe => {}
        }
    }

    fn hop_limit_or_default(&self) -> u8 {
        match self.hop_limit {
            None => HOP_LIMIT,
            Some(limit) => limit,
        }
    }

    // Makes it the header of a packet with a payload of so many bytes.
    #[inline(always)]
    fn fill_header(&self, tuple: &Tuple, payload_len: usize, header: &mut IpRepr) {
        let hop_limit = self.hop_limit_or_default();
        match (&tuple.local.addr, &tuple.remote.addr) {
            (IpAddress::Ipv4(src_addr), IpAddress::Ipv4(dst_addr)) => {
                *header = IpRepr::Ipv4(Ipv4Repr {
                    src_addr: *src_addr,
                    dst_addr: *dst_addr,
                    next_header: IpProtocol::Tcp,
                    payload_len,
                    hop_limit,
                });
            }
            (IpAddress::Ipv6(src_addr), IpAddress::Ipv6(dst_addr)) => {
                *header = IpRepr::Ipv6(Ipv6Repr {
                    src_addr: *src_addr,
                    dst_addr: *dst_addr,
                    next_header: IpProtocol::Tcp,
                    payload_len,
                    hop_limit,
                });
            }
            _ => unreachable!(),
        }
    }

    // Makes the plain segment the one that goes out with this payload, if any does; answers what it is emitted for.
    fn finish<'s, C: Context>(
        &self,
        cx: &C,
        tuple: &Tuple,
        payload: &'s [u8],
        repr: &mut TcpRepr<'s>,
    ) -> Option<Kind> {
        if !self.fill(cx, tuple, payload, repr) {
            return None;
        }
        let kind = self.kind(cx.now(), repr);
        self.fill_kind(kind, repr);
        Some(kind)
    }

    // Makes the packet that goes out, with its header.
    pub(crate) fn finish_packet<'s, C: Context>(
        &self,
        cx: &C,
        tuple: &Tuple,
        payload: &'s [u8],
        packet: &mut (IpRepr, TcpRepr<'s>),
    ) -> Option<Kind> {
        let kind = match self.finish(cx, tuple, payload, &mut packet.1) {
            None => return None,
            Some(kind) => kind,
        };
        let payload_len = packet.1.buffer_len();
        self.fill_header(tuple, payload_len, &mut packet.0);
        Some(kind)
    }

    // Says that what it sends fits a packet, whatever timestamp it has.
    pub(crate) fn sends_packets<C: Context>(
        &self,
        cx: &C,
        tuple: &Tuple,
        stamp: Option<u32>,
        payload: &[u8],
    ) {
        let _tuple = &self.tuple;
    }
}
