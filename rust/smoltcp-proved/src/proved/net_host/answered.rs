// Made from crates/net_host/src/answered.rt by rust/translate: change it there.
//! A connection hears a segment, and what it answers is written as a packet.

use crate::kit::Vec;
use crate::proved::net_host::limit::Limit;
use crate::proved::net_host::replies::put_reply;
use crate::proved::net_host::segments::keep_within;
use crate::proved::net_host::slot::Slot;
use crate::sockets::sock_tcp::{Response, TsvalSource};
use crate::sockets::wire::{IpRepr, TcpRepr};
use crate::sockets::{Context, Socket, tcp};

// What goes out of the answer to a segment that the socket took: the length of its packet, at the beginning of `out`.
// Not inlined, as most segments are answered by nothing, and the space for a reply is cleared where it is made.
#[inline(never)]
fn put_answer<C: Context, G: TsvalSource>(
    tcp: &mut tcp::Socket<'_, G>,
    cx: &C,
    limit: &mut Limit,
    response: Response,
    ip: &IpRepr,
    repr: &TcpRepr<'_>,
    out: &mut [u8],
) -> usize {
    let caps = cx.checksum_caps();
    let mut reply = tcp.reply_by(response, ip, repr);
    keep_within(limit, cx.now(), ip, &mut reply);
    put_reply(&reply, out, &caps)
}

impl<'a, G: TsvalSource> Slot<'a, G> {
    // The connection here hears the segment: the length of the packet that answers it, at the beginning of `out`.
    #[inline(always)]
    fn hear_out<C: Context>(
        &mut self,
        cx: &mut C,
        limit: &mut Limit,
        ip: &IpRepr,
        repr: &TcpRepr<'_>,
        out: &mut [u8],
    ) -> usize {
        match &mut self.socket {
            Some(Socket::Tcp(tcp)) => match tcp.take_segment(cx, ip, repr) {
                Response::Nothing => 0,
                Response::Ack(count) => put_answer(tcp, cx, limit, Response::Ack(count), ip, repr, out),
                Response::Rst => put_answer(tcp, cx, limit, Response::Rst, ip, repr, out),
            },
            _ => 0,
        }
    }
}

/// The connection at this place hears the segment: the length of the packet that answers it, at the beginning of
/// `out`, or 0.
pub(crate) fn hear_out_there<C: Context, G: TsvalSource>(
    slots: &mut Vec<Slot<'_, G>>,
    i: usize,
    cx: &mut C,
    limit: &mut Limit,
    ip: &IpRepr,
    repr: &TcpRepr<'_>,
    out: &mut [u8],
) -> usize {
    slots[i].hear_out(cx, limit, ip, repr, out)
}
