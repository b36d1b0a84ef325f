// Made from crates/net_host/src/rest.rt by rust/translate: change it there.
//! Connections in TIME-WAIT that give way to a SYN, and sockets that serve a port.

use crate::proved::control_wire::TcpSeqNumber;
use crate::proved::net_host::asked::Asked;
use crate::proved::net_host::filing::{is_ordered, server_key};
use crate::proved::net_host::find::{Sought, earliest_in, first_in};
use crate::proved::net_host::set::SocketSet;
use crate::proved::net_host::slot::Slot;
use crate::sockets::sock_tcp::TsvalSource;
use crate::sockets::tcp::State;
use crate::sockets::time::Instant;
use crate::sockets::wire::{IpListenEndpoint, IpRepr, TcpControl, TcpRepr};
use crate::sockets::{Context, Socket, tcp};

/// Whether the segment is a SYN without an ACK.
pub(crate) fn opens(repr: &TcpRepr<'_>) -> bool {
    matches!((repr.control, repr.ack_number), (TcpControl::Syn, None))
}

// Whether a number stands behind another, by less than half of the circle.
fn is_above(a: TcpSeqNumber, b: TcpSeqNumber) -> bool {
    let distance = a.since(b);
    0 < distance && distance < 1 << 31
}

// Whether the segment is for a listener on this endpoint.
#[inline(always)]
fn is_to_listener(endpoint: &IpListenEndpoint, ip: &IpRepr, repr: &TcpRepr<'_>) -> bool {
    let addressed = match endpoint.addr {
        None => true,
        Some(addr) => ip.dst_addr() == addr,
    };
    addressed && repr.dst_port == endpoint.port && repr.dst_port != 0
}

// Whether the socket is in TIME-WAIT, listened for the segment, and has nothing left to read.
fn rests_for<G>(tcp: &tcp::Socket<'_, G>, ip: &IpRepr, repr: &TcpRepr<'_>) -> bool {
    tcp.state() == State::TimeWait && !tcp.can_recv() && is_to_listener(&tcp.listen_endpoint(), ip, repr)
}

// The moment, where it is within 2^61 microseconds of zero.
fn if_ordered(end: Option<Instant>) -> Option<Instant> {
    match end {
        Some(end) if is_ordered(end) => Some(end),
        _ => None,
    }
}

fn is_serving(state: State) -> bool {
    !matches!(state, State::Closed | State::Listen | State::TimeWait)
}

impl<'a, G: TsvalSource> Slot<'a, G> {
    /// Whether the SYN opens the connection here again.
    pub(crate) fn reopens(&self, ip: &IpRepr, repr: &TcpRepr<'_>) -> bool {
        match &self.socket {
            Some(Socket::Tcp(tcp)) => {
                opens(repr) && rests_for(tcp, ip, repr) && is_above(repr.seq_number, tcp.receive_next())
            }
            _ => false,
        }
    }

    // Until when the socket rests that may listen again for the segment.
    pub(crate) fn rests_until(&self, ip: &IpRepr, repr: &TcpRepr<'_>) -> Option<Instant> {
        match &self.socket {
            Some(Socket::Tcp(tcp)) => {
                if rests_for(tcp, ip, repr) {
                    if_ordered(tcp.time_wait_end())
                } else {
                    None
                }
            }
            _ => None,
        }
    }

    pub(crate) fn serves(&self, ip: &IpRepr, repr: &TcpRepr<'_>) -> bool {
        match &self.socket {
            Some(Socket::Tcp(tcp)) => {
                is_serving(tcp.state()) && is_to_listener(&tcp.listen_endpoint(), ip, repr)
            }
            _ => false,
        }
    }
}

/// The socket that has rested longest, of those that may listen again for the segment, and until when it rests.
pub(crate) fn oldest<G: TsvalSource>(
    sockets: &SocketSet<'_, G>,
    ip: &IpRepr,
    repr: &TcpRepr<'_>,
    asked: &mut Asked,
) -> Option<(usize, Instant)> {
    if sockets.complete {
        earliest_in(&sockets.slots, &sockets.index, ip, repr, asked)
    } else {
        walk_for_oldest(&sockets.slots, ip, repr)
    }
}

fn walk_for_oldest<G: TsvalSource>(
    slots: &[Slot<'_, G>],
    ip: &IpRepr,
    repr: &TcpRepr<'_>,
) -> Option<(usize, Instant)> {
    let mut found = None;
    for i in 0..slots.len() {
        found = earlier(found, i, slots[i].rests_until(ip, repr));
    }
    found
}

fn earlier(found: Option<(usize, Instant)>, i: usize, until: Option<Instant>) -> Option<(usize, Instant)> {
    match (found, until) {
        (None, Some(until)) => Some((i, until)),
        (Some((_, least)), Some(until)) if until.micros < least.micros => Some((i, until)),
        _ => found,
    }
}

/// A socket with a connection that was opened on the port of the segment.
pub(crate) fn any_server<C: Context, G: TsvalSource>(
    sockets: &SocketSet<'_, G>,
    cx: &C,
    ip: &IpRepr,
    repr: &TcpRepr<'_>,
    asked: &mut Asked,
) -> Option<usize> {
    if sockets.complete {
        let key = server_key(repr.dst_port);
        first_in(&sockets.slots, &sockets.index, key, cx, Sought::Server, ip, repr, asked)
    } else {
        walk_for_server(&sockets.slots, ip, repr)
    }
}

fn walk_for_server<G: TsvalSource>(slots: &[Slot<'_, G>], ip: &IpRepr, repr: &TcpRepr<'_>) -> Option<usize> {
    for (i, slot) in slots.iter().enumerate() {
        if slot.serves(ip, repr) {
            return Some(i);
        }
    }
    None
}
