// Made from crates/net_host/src/copies.rt by rust/translate: change it there.
//! What sockets of the other kinds take, in a set with an index.

use crate::proved::host_bounds::Bounds;
use crate::proved::net_host::datagrams::{first_for_datagram, first_under, hear_found};
use crate::proved::net_host::filing::{raw_key, udp_key};
use crate::proved::net_host::messages::{Mail, copy_to};
use crate::proved::net_host::raw_copies::copy_packet_to;
use crate::proved::net_host::set::SocketSet;
use crate::sockets::Context;
use crate::sockets::sock_tcp::TsvalSource;
use crate::sockets::wire::{IpRepr, UdpRepr};

// Whether no socket is a raw one, by one look at the index. Where the answer is no, it says nothing.
fn has_no_raw<G: TsvalSource>(sockets: &SocketSet<'_, G>) -> bool {
    let _count = sockets.slots.len(); // for its bound
    sockets.complete && sockets.index.is_behind(raw_key())
}

/// Each raw socket that accepts the packet takes a copy.
#[inline(always)]
pub(crate) fn copy_packet<C: Context, G: TsvalSource>(
    sockets: &mut SocketSet<'_, G>,
    cx: &C,
    ip: &IpRepr,
    payload: &[u8],
) {
    sockets.settle(); // a place that was lent may have a raw socket now
    if has_no_raw(sockets) {
        return;
    }
    sockets.settled = false;
    let complete = sockets.complete;
    copy_packet_to(&mut sockets.slots, &mut sockets.bounds, &sockets.index, complete, cx, ip, payload);
}

/// Each ICMP socket that accepts the message takes a copy.
pub(crate) fn copy_mail<C: Context, G: TsvalSource>(sockets: &mut SocketSet<'_, G>, cx: &C, mail: &Mail<'_>) {
    sockets.settle();
    sockets.settled = false;
    let complete = sockets.complete;
    copy_to(&mut sockets.slots, &mut sockets.bounds, &sockets.index, complete, cx, mail);
}

// The first socket that takes the datagram, by the index where it is complete.
fn datagram_taker<C: Context, G: TsvalSource>(
    sockets: &SocketSet<'_, G>,
    cx: &C,
    ip: &IpRepr,
    repr: &UdpRepr,
) -> Option<usize> {
    if sockets.complete {
        let key = udp_key(repr.dst_port);
        first_under(&sockets.slots, &sockets.index, key, cx, ip, repr)
    } else {
        first_for_datagram(&sockets.slots, cx, ip, repr)
    }
}

// The place that is found, if any, is to be asked at once.
fn touch_found(bounds: &mut Bounds, found: Option<usize>) {
    if let Some(i) = found {
        bounds.put_at_once(i);
    }
}

/// A datagram arrives: the place of the first socket that takes it, if any, and whether there was room for it there.
pub(crate) fn hear_datagram_of<C: Context, G: TsvalSource>(
    sockets: &mut SocketSet<'_, G>,
    cx: &C,
    ip: &IpRepr,
    repr: &UdpRepr,
    payload: &[u8],
) -> (Option<usize>, bool) {
    sockets.settle();
    let found = datagram_taker(sockets, cx, ip, repr);
    sockets.settled = false;
    touch_found(&mut sockets.bounds, found);
    let room = hear_found(&mut sockets.slots, found, cx, ip, repr, payload);
    (found, room)
}
