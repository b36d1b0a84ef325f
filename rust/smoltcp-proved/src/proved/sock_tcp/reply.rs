// Made from crates/sock_tcp/src/reply.rt by rust/translate: change it there.
//! The segments that answer others (RFC 9293, section 3.10.7.1).

use crate::proved::control_wire::{TcpControl, TcpRepr, TcpSeqNumber, TcpTimestampRepr};
use crate::proved::ip_wire::{IpProtocol, IpRepr};
use crate::proved::sock_tcp::control_block::ControlBlock;
use crate::proved::sock_tcp::duplicates::Response;
use crate::proved::sock_tcp::generator::TsvalSource;
use crate::proved::sock_tcp::rules::Rules;
use crate::proved::sock_tcp::socket::Socket;

/// A segment that answers another, with its IP header.
pub type Reply = (IpRepr, TcpRepr<'static>);

// Replies have this hop limit whatever the user sets, as smoltcp.
const HOP_LIMIT: u8 = 64;

// How many sequence numbers there are.
const SEQUENCE_SPACE: u64 = 0x1_0000_0000;

// The reply with its header.
pub(crate) fn with_header(ip_repr: &IpRepr, reply: TcpRepr<'static>) -> Reply {
    let ip_reply =
        IpRepr::new(ip_repr.dst_addr(), ip_repr.src_addr(), IpProtocol::Tcp, reply.buffer_len(), HOP_LIMIT);
    (ip_reply, reply)
}

// Nothing but the ports, the other way round.
pub(crate) fn bare_reply(repr: &TcpRepr<'_>) -> TcpRepr<'static> {
    TcpRepr::bare(repr.dst_port, repr.src_port)
}

// The RST that answers a segment.
fn rst_segment(repr: &TcpRepr<'_>) -> TcpRepr<'static> {
    let mut reply = bare_reply(repr);
    reply.control = TcpControl::Rst;
    match (repr.control, repr.ack_number) {
        (_, Some(ack)) => reply.seq_number = ack,
        (TcpControl::Syn, None) => {
            reply.ack_number = Some(repr.seq_number.plus(repr.segment_len()));
        }
        (_, None) => {}
    }
    reply
}

// The number so far behind `next`.
fn wire_number(next: TcpSeqNumber, offset: usize) -> u32 {
    next.plus((offset as u64 % SEQUENCE_SPACE) as usize).0
}

// A range's edges on the wire.
fn wire_edges(next: TcpSeqNumber, range: (usize, usize)) -> (u32, u32) {
    (wire_number(next, range.0), wire_number(next, range.1))
}

// The edges of a range on the wire, if there is one.
fn on_wire(next: TcpSeqNumber, range: Option<(usize, usize)>) -> Option<(u32, u32)> {
    match range {
        None => None,
        Some(range) => Some(wire_edges(next, range)),
    }
}

// They begin at the same place.
fn is_same(range: Option<(usize, usize)>, other: Option<(usize, usize)>) -> bool {
    match (range, other) {
        (Some(range), Some(other)) => range.0 == other.0,
        _ => false,
    }
}

impl<'a> ControlBlock<'a> {
    // The range around the last segment in the window, else the first.
    fn chosen_range(&self) -> Option<(usize, usize)> {
        let around = match self.local_rx_last_seq() {
            None => None,
            Some(number) => self.rx_buffer.range_around(number.since(self.next_ack())),
        };
        match around {
            None => self.rx_buffer.range_at(0),
            Some(range) => Some(range),
        }
    }

    // The first range beside the chosen one.
    fn second_range(&self, chosen: Option<(usize, usize)>) -> Option<(usize, usize)> {
        let first = self.rx_buffer.range_at(0);
        if is_same(chosen, first) { self.rx_buffer.range_at(1) } else { first }
    }

    // The one behind that.
    fn third_range(&self, chosen: Option<(usize, usize)>) -> Option<(usize, usize)> {
        let second = self.rx_buffer.range_at(1);
        if is_same(chosen, self.rx_buffer.range_at(0)) || is_same(chosen, second) {
            self.rx_buffer.range_at(2)
        } else {
            second
        }
    }

    // The ranges that tell a peer which permits it what is held (RFC 2018, section 4).
    pub(crate) fn sack_ranges(&self) -> [Option<(u32, u32)>; 3] {
        if !self.remote_has_sack {
            return [None, None, None];
        }
        let next = self.next_ack();
        let chosen = self.chosen_range();
        let first = on_wire(next, chosen);
        match crate::kit::in_force(self.rules) {
            Rules::Smoltcp => [first, None, None],
            Rules::Rfc => {
                let second = on_wire(next, self.second_range(chosen));
                [first, second, on_wire(next, self.third_range(chosen))]
            }
        }
    }

    // An acknowledgement, which becomes the last sent.
    pub(crate) fn ack_reply(&mut self, repr: &TcpRepr<'_>) -> TcpRepr<'static> {
        let mut reply = bare_reply(repr);
        reply.seq_number = self.remote_last_seq;
        reply.ack_number = Some(self.next_ack());
        reply.window_len = self.window_field();
        reply.sack_ranges = self.sack_ranges();
        self.remote_last_ack = reply.ack_number;
        self.remote_last_win = reply.window_len;
        reply
    }
}

// The acknowledgement of a segment of which so many bytes came before.
fn with_duplicate(count: u32, repr: &TcpRepr<'_>, reply: TcpRepr<'static>) -> TcpRepr<'static> {
    let mut reply = reply;
    if count > 0 {
        let number = repr.seq_number;
        let block = (number.plus(0).0, number.plus(count as usize).0);
        reply.sack_ranges = [Some(block), reply.sack_ranges[0], reply.sack_ranges[1]];
    }
    reply
}

impl<'a> ControlBlock<'a> {
    // What the timestamp of a reply echoes: what came, or by the RFCs' rules TS.Recent (RFC 7323, section 4.3).
    fn echoed(&self, came: Option<TcpTimestampRepr>) -> Option<u32> {
        match (crate::kit::in_force(self.rules), came) {
            (Rules::Rfc, _) => Some(self.last_remote_tsval),
            (Rules::Smoltcp, Some(came)) => Some(came.tsval),
            (Rules::Smoltcp, None) => None,
        }
    }
}

impl<'a, G: TsvalSource> Socket<'a, G> {
    // The timestamp of a reply to this segment.
    fn stamp(&self, control: TcpControl, repr: &TcpRepr<'_>) -> Option<TcpTimestampRepr> {
        let echo = self.control_block.echoed(repr.timestamp);
        match (control, echo, &self.tsval_generator) {
            (TcpControl::None, Some(echo), Some(generator)) => {
                Some(TcpTimestampRepr::new(generator.tsval(), echo))
            }
            _ => None,
        }
    }

    // The reply as it goes out.
    fn answer(&self, ip_repr: &IpRepr, repr: &TcpRepr<'_>, reply: TcpRepr<'static>) -> Reply {
        let mut reply = reply;
        reply.timestamp = self.stamp(reply.control, repr);
        with_header(ip_repr, reply)
    }

    /// The second half of [`Socket::process`]: the segment that answers one which [`Socket::take_segment`] took and
    /// said to be answered so, if any; it has no payload. An acknowledgement becomes the last sent.
    ///
    /// The answer can be written as a packet.
    // Not inlined: most segments have no reply, and the space for one is cleared where it is made.
    #[inline(never)]
    pub fn reply_by(&mut self, response: Response, ip_repr: &IpRepr, repr: &TcpRepr<'_>) -> Option<Reply> {
        match response {
            Response::Nothing => None,
            Response::Ack(count) => {
                let reply = self.control_block.ack_reply(repr);
                let reply = with_duplicate(count, repr, reply);
                let reply = self.control_block.number_reply(reply);
                Some(self.answer(ip_repr, repr, reply))
            }
            Response::Rst => Some(self.answer(ip_repr, repr, rst_segment(repr))),
        }
    }
}

impl<'a> Socket<'a> {
    /// A segment that answers this one, with its header: the addresses and ports the other way round, and nothing
    /// else. It has no control, the number 0, no acknowledgement, window, options or payload. As smoltcp.
    ///
    /// It can be written as a packet.
    pub fn reply(ip_repr: &IpRepr, repr: &TcpRepr<'_>) -> Reply {
        with_header(ip_repr, bare_reply(repr))
    }

    /// The RST that answers a segment which is for no socket, and is no RST itself (RFC 9293, section 3.10.7.1). The
    /// payload is at most 65535 bytes.
    ///
    /// Its number is what the segment acknowledges, or 0; it acknowledges a SYN that has no acknowledgement. It can be
    /// written as a packet.
    pub fn rst_reply(ip_repr: &IpRepr, repr: &TcpRepr<'_>) -> Reply {
        with_header(ip_repr, rst_segment(repr))
    }
}
