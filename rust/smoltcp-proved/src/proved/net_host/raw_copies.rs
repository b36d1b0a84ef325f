// Made from crates/net_host/src/raw_copies.rt by rust/translate: change it there.
//! A copy of a packet to each raw socket that accepts it.

use crate::kit::Vec;
use crate::proved::host_bounds::Bounds;
use crate::proved::host_index::Index;
use crate::proved::net_host::filing::raw_key;
use crate::proved::net_host::find::next_under;
use crate::proved::net_host::slot::Slot;
use crate::proved::net_host::touched::touch_if;
use crate::sockets::sock_tcp::TsvalSource;
use crate::sockets::wire::IpRepr;
use crate::sockets::{Context, Socket, raw};

impl<'a, G: TsvalSource> Slot<'a, G> {
    // Whether it took one.
    fn copy_packet<C: Context>(&mut self, cx: &C, ip: &IpRepr, payload: &[u8]) -> bool {
        match &mut self.socket {
            Some(Socket::Raw(raw)) => take_copy(raw, cx, ip, payload),
            _ => false,
        }
    }
}

fn take_copy<C: Context>(socket: &mut raw::Socket<'_>, cx: &C, ip: &IpRepr, payload: &[u8]) -> bool {
    if !socket.accepts(ip) {
        return false;
    }
    socket.process(cx, ip, payload);
    true
}

// Each raw socket that accepts the packet takes a copy: a walk through all places.
fn copy_packet_to_all<C: Context, G: TsvalSource>(
    slots: &mut Vec<Slot<'_, G>>,
    bounds: &mut Bounds,
    cx: &C,
    ip: &IpRepr,
    payload: &[u8],
) {
    for i in 0..slots.len() {
        copy_packet_at(slots, bounds, i, cx, ip, payload);
    }
}

fn copy_packet_at<C: Context, G: TsvalSource>(
    slots: &mut Vec<Slot<'_, G>>,
    bounds: &mut Bounds,
    i: usize,
    cx: &C,
    ip: &IpRepr,
    payload: &[u8],
) {
    let took = slots[i].copy_packet(cx, ip, payload);
    touch_if(bounds, i, took);
}

// A copy for each raw socket, by the places of raw sockets alone, where each place is filed.
fn copy_packet_to_listed<C: Context, G: TsvalSource>(
    slots: &mut Vec<Slot<'_, G>>,
    bounds: &mut Bounds,
    index: &Index,
    cx: &C,
    ip: &IpRepr,
    payload: &[u8],
) {
    let key = raw_key();
    let end = slots.len();
    let mut from = 0;
    while let Some(i) = next_under(index, key, from, end) {
        copy_packet_at(slots, bounds, i, cx, ip, payload);
        from = i + 1;
    }
}

/// Each raw socket that accepts the packet takes a copy. Where each place is filed, the others are not looked at.
// Not inlined, as few hosts have a raw socket.
#[inline(never)]
pub(crate) fn copy_packet_to<C: Context, G: TsvalSource>(
    slots: &mut Vec<Slot<'_, G>>,
    bounds: &mut Bounds,
    index: &Index,
    complete: bool,
    cx: &C,
    ip: &IpRepr,
    payload: &[u8],
) {
    if complete {
        copy_packet_to_listed(slots, bounds, index, cx, ip, payload);
    } else {
        copy_packet_to_all(slots, bounds, cx, ip, payload);
    }
}
