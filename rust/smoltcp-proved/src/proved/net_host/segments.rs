// Made from crates/net_host/src/segments.rt by rust/translate: change it there.
//! Which socket takes a TCP segment, and what becomes of it.

use crate::kit::Vec;
use crate::proved::net_host::asked::Asked;
use crate::proved::net_host::filing::{connection_key, listener_key, number_of};
use crate::proved::net_host::find::{Sought, first_if_any, first_sought};
use crate::proved::net_host::limit::Limit;
use crate::proved::net_host::rest::{any_server, oldest, opens};
use crate::proved::net_host::set::SocketSet;
use crate::proved::net_host::slot::Slot;
use crate::sockets::sock_tcp::{Reply, TsvalSource};
use crate::sockets::time::Instant;
use crate::sockets::wire::{IpRepr, TcpControl, TcpRepr};
use crate::sockets::{Context, Socket, tcp};

/// Who takes a segment, by its place in the set.
#[derive(Debug, Clone, Copy, PartialEq, Eq)]
pub enum Taker {
    /// A connection.
    Connection(usize),
    /// A connection in TIME-WAIT, which a later SYN opens again.
    Reopened(usize),
    /// A socket that listens.
    Listener(usize),
    /// A socket in TIME-WAIT, which listens again as no other does.
    Reused(usize),
    /// No socket now, though the port is served.
    Busy,
    /// No socket.
    Nobody,
}

impl<'a, G: TsvalSource> Slot<'a, G> {
    pub(crate) fn takes_segment<C: Context>(
        &self,
        cx: &C,
        listening: bool,
        ip: &IpRepr,
        repr: &TcpRepr<'_>,
    ) -> bool {
        match &self.socket {
            Some(Socket::Tcp(tcp)) => {
                tcp.is_listening() == listening
                    && tcp.accepts(cx, ip, repr)
                    && (listening || tcp.remote_endpoint().is_some())
            }
            _ => false,
        }
    }

    fn hear<C: Context>(
        &mut self,
        cx: &mut C,
        listening: bool,
        ip: &IpRepr,
        repr: &TcpRepr<'_>,
        reply: &mut Option<Reply>,
    ) {
        if listening && opens(repr) {
            self.opened = self.opened.wrapping_add(1);
        }
        match &mut self.socket {
            Some(Socket::Tcp(tcp)) => match tcp.process(cx, ip, repr) {
                // apart, as mostly nothing is answered, and a copy of nothing is as long as one of an answer
                Some(answer) => *reply = Some(answer),
                None => *reply = None,
            },
            _ => *reply = None,
        }
    }

    // It listens again on its endpoint, and hears the SYN.
    fn hear_anew<C: Context>(
        &mut self,
        cx: &mut C,
        ip: &IpRepr,
        repr: &TcpRepr<'_>,
        reply: &mut Option<Reply>,
    ) {
        self.opened = self.opened.wrapping_add(1);
        match &mut self.socket {
            Some(Socket::Tcp(tcp)) => {
                let _ = tcp.listen(tcp.listen_endpoint());
                match tcp.process(cx, ip, repr) {
                    Some(answer) => *reply = Some(answer),
                    None => *reply = None,
                }
            }
            _ => *reply = None,
        }
    }
}

// The first socket that takes the segment, of those that listen or of the others.
#[inline(always)]
pub(crate) fn first_taker<C: Context, G: TsvalSource>(
    sockets: &SocketSet<'_, G>,
    cx: &C,
    listening: bool,
    ip: &IpRepr,
    repr: &TcpRepr<'_>,
    asked: &mut Asked,
) -> Option<usize> {
    if sockets.complete {
        found_taker(sockets, cx, listening, ip, repr, asked)
    } else {
        walk_for_taker(&sockets.slots, cx, listening, ip, repr)
    }
}

// By the index.
#[inline(always)]
fn found_taker<C: Context, G: TsvalSource>(
    sockets: &SocketSet<'_, G>,
    cx: &C,
    listening: bool,
    ip: &IpRepr,
    repr: &TcpRepr<'_>,
    asked: &mut Asked,
) -> Option<usize> {
    if listening {
        let key = listener_key(repr.dst_port);
        first_if_any(&sockets.slots, &sockets.index, key, cx, Sought::Listener, ip, repr, asked)
    } else {
        let key = connection_key(&ip.src_addr(), repr.dst_port, repr.src_port);
        first_sought(&sockets.slots, &sockets.index, key, cx, Sought::Connection, ip, repr, asked)
    }
}

fn walk_for_taker<C: Context, G: TsvalSource>(
    slots: &[Slot<'_, G>],
    cx: &C,
    listening: bool,
    ip: &IpRepr,
    repr: &TcpRepr<'_>,
) -> Option<usize> {
    for (i, slot) in slots.iter().enumerate() {
        if slot.takes_segment(cx, listening, ip, repr) {
            return Some(i);
        }
    }
    None
}

/// Who takes the segment, as `IsTaker` says.
pub(crate) fn who_takes<C: Context, G: TsvalSource>(
    sockets: &SocketSet<'_, G>,
    cx: &C,
    ip: &IpRepr,
    repr: &TcpRepr<'_>,
    asked: &mut Asked,
) -> Taker {
    match first_taker(sockets, cx, false, ip, repr, asked) {
        Some(i) => {
            if sockets.slots[i].reopens(ip, repr) {
                Taker::Reopened(i)
            } else {
                Taker::Connection(i)
            }
        }
        None => listener(sockets, cx, ip, repr, asked),
    }
}

// Whether the connection at this place takes the segment, as it is.
#[inline(always)]
fn goes_on_with<C: Context, G: TsvalSource>(
    slots: &[Slot<'_, G>],
    i: usize,
    cx: &C,
    ip: &IpRepr,
    repr: &TcpRepr<'_>,
) -> bool {
    match slots.get(i) {
        Some(slot) => slot.takes_segment(cx, false, ip, repr) && !slot.reopens(ip, repr),
        None => false,
    }
}

/// The connection that takes the segment, by one look where its place is known, as mostly. Where the answer is none, it
/// says nothing.
#[inline(always)]
pub(crate) fn known_taker<C: Context, G: TsvalSource>(
    sockets: &mut SocketSet<'_, G>,
    cx: &C,
    ip: &IpRepr,
    repr: &TcpRepr<'_>,
) -> Option<usize> {
    let key = connection_key(&ip.src_addr(), repr.dst_port, repr.src_port);
    match sockets.known_place(key) {
        Some(i) if sockets.complete && goes_on_with(&sockets.slots, i, cx, ip, repr) => Some(i),
        _ => None,
    }
}

// Whether a socket that listens may take the segment: with an ACK or as an RST none does (RFC 9293, section 3.10.7.2).
fn may_open(repr: &TcpRepr<'_>) -> bool {
    repr.ack_number.is_none() && !matches!(repr.control, TcpControl::Rst)
}

// Who takes a segment that is for no connection. Where it cannot open one, no listener is asked.
fn listener<C: Context, G: TsvalSource>(
    sockets: &SocketSet<'_, G>,
    cx: &C,
    ip: &IpRepr,
    repr: &TcpRepr<'_>,
    asked: &mut Asked,
) -> Taker {
    if !may_open(repr) {
        return Taker::Nobody;
    }
    match first_taker(sockets, cx, true, ip, repr, asked) {
        Some(i) => Taker::Listener(i),
        None => {
            if opens(repr) {
                rested(sockets, cx, ip, repr, asked)
            } else {
                Taker::Nobody
            }
        }
    }
}

// Who takes a SYN for which no socket listens.
fn rested<C: Context, G: TsvalSource>(
    sockets: &SocketSet<'_, G>,
    cx: &C,
    ip: &IpRepr,
    repr: &TcpRepr<'_>,
    asked: &mut Asked,
) -> Taker {
    match oldest(sockets, ip, repr, asked) {
        Some((i, _)) => Taker::Reused(i),
        None => match any_server(sockets, cx, ip, repr, asked) {
            Some(_) => Taker::Busy,
            None => Taker::Nobody,
        },
    }
}

// The socket at this place takes the segment.
fn hear_there<C: Context, G: TsvalSource>(
    slots: &mut Vec<Slot<'_, G>>,
    i: usize,
    cx: &mut C,
    listening: bool,
    ip: &IpRepr,
    repr: &TcpRepr<'_>,
    reply: &mut Option<Reply>,
) {
    slots[i].hear(cx, listening, ip, repr, reply);
}

// The socket at this place listens again, and takes the SYN.
fn hear_anew_there<C: Context, G: TsvalSource>(
    slots: &mut Vec<Slot<'_, G>>,
    i: usize,
    cx: &mut C,
    ip: &IpRepr,
    repr: &TcpRepr<'_>,
    reply: &mut Option<Reply>,
) {
    slots[i].hear_anew(cx, ip, repr, reply);
}

/// The socket at this place takes the segment. The reply is written where it is wanted: given back, it would be copied
/// by each caller on the way, with nearly every packet.
#[inline(always)]
pub(crate) fn hear_at<C: Context, G: TsvalSource>(
    sockets: &mut SocketSet<'_, G>,
    i: usize,
    cx: &mut C,
    listening: bool,
    ip: &IpRepr,
    repr: &TcpRepr<'_>,
    reply: &mut Option<Reply>,
) {
    sockets.lend(i);
    hear_there(&mut sockets.slots, i, cx, listening, ip, repr, reply);
}

/// The socket at this place listens again, and takes the SYN.
// Not inlined, as few segments come here.
#[inline(never)]
pub(crate) fn hear_anew_at<C: Context, G: TsvalSource>(
    sockets: &mut SocketSet<'_, G>,
    i: usize,
    cx: &mut C,
    ip: &IpRepr,
    repr: &TcpRepr<'_>,
    reply: &mut Option<Reply>,
) {
    sockets.lend(i);
    hear_anew_there(&mut sockets.slots, i, cx, ip, repr, reply);
}

/// The RST that answers a segment for no socket, unless it is one itself.
// Not inlined, as few segments come here.
#[inline(never)]
fn refuse(ip: &IpRepr, repr: &TcpRepr<'_>) -> Option<Reply> {
    if repr.control == TcpControl::Rst {
        return None;
    }
    Some(tcp::Socket::rst_reply(ip, repr))
}

fn is_rst(reply: &Option<Reply>) -> bool {
    match reply {
        None => false,
        Some((_, repr)) => repr.control == TcpControl::Rst,
    }
}

/// What goes out of what answers a segment: an RST only where the limit allows its sender one more.
pub(crate) fn keep_within(limit: &mut Limit, now: Instant, ip: &IpRepr, reply: &mut Option<Reply>) {
    if is_rst(reply) && !limit.take(number_of(&ip.src_addr()), now) {
        *reply = None;
    }
}

/// The segment goes to its taker, or is refused; the reply is written where it is wanted, as `hear_at` does. Of the
/// limit on RSTs nothing is taken yet.
pub(crate) fn take_segment<C: Context, G: TsvalSource>(
    sockets: &mut SocketSet<'_, G>,
    cx: &mut C,
    taker: Taker,
    ip: &IpRepr,
    repr: &TcpRepr<'_>,
    reply: &mut Option<Reply>,
) {
    match taker {
        Taker::Connection(i) => hear_at(sockets, i, cx, false, ip, repr, reply),
        Taker::Listener(i) => hear_at(sockets, i, cx, true, ip, repr, reply),
        Taker::Reopened(i) | Taker::Reused(i) => hear_anew_at(sockets, i, cx, ip, repr, reply),
        Taker::Busy => *reply = None,
        Taker::Nobody => *reply = refuse(ip, repr),
    }
}
