// Made from crates/net_host/src/datagrams.rt by rust/translate: change it there.
//! Which socket takes a UDP datagram, and what becomes of it.

use crate::kit::Vec;
use crate::proved::host_index::{Entry, Index};
use crate::proved::net_host::find::{Side, stands};
use crate::proved::net_host::slot::Slot;
use crate::sockets::sock_tcp::TsvalSource;
use crate::sockets::wire::{IpRepr, UdpRepr};
use crate::sockets::{Context, Socket};

impl<'a, G: TsvalSource> Slot<'a, G> {
    fn takes_datagram<C: Context>(&self, cx: &C, ip: &IpRepr, repr: &UdpRepr) -> bool {
        match &self.socket {
            Some(Socket::Udp(udp)) => udp.accepts(cx, ip, repr),
            _ => false,
        }
    }

    // Whether there was room for it.
    fn hear_datagram<C: Context>(&mut self, cx: &C, ip: &IpRepr, repr: &UdpRepr, payload: &[u8]) -> bool {
        match &mut self.socket {
            Some(Socket::Udp(udp)) => udp.queue_datagram(ip, repr, payload),
            _ => true,
        }
    }
}

/// The first socket that takes the datagram, in the order of handles.
pub(crate) fn first_for_datagram<C: Context, G: TsvalSource>(
    slots: &[Slot<'_, G>],
    cx: &C,
    ip: &IpRepr,
    repr: &UdpRepr,
) -> Option<usize> {
    for (i, slot) in slots.iter().enumerate() {
        if slot.takes_datagram(cx, ip, repr) {
            return Some(i);
        }
    }
    None
}

fn hear_datagram_at<C: Context, G: TsvalSource>(
    slots: &mut Vec<Slot<'_, G>>,
    i: usize,
    cx: &C,
    ip: &IpRepr,
    repr: &UdpRepr,
    payload: &[u8],
) -> bool {
    slots[i].hear_datagram(cx, ip, repr, payload)
}

/// The datagram goes to the first socket that takes it, if any. Whether there was room for it there.
pub(crate) fn hear_found<C: Context, G: TsvalSource>(
    slots: &mut Vec<Slot<'_, G>>,
    found: Option<usize>,
    cx: &C,
    ip: &IpRepr,
    repr: &UdpRepr,
    payload: &[u8],
) -> bool {
    match found {
        Some(i) => hear_datagram_at(slots, i, cx, ip, repr, payload),
        None => true,
    }
}

fn takes_at<C: Context, G: TsvalSource>(
    slots: &[Slot<'_, G>],
    place: usize,
    cx: &C,
    ip: &IpRepr,
    repr: &UdpRepr,
) -> bool {
    match slots.get(place) {
        Some(slot) => slot.takes_datagram(cx, ip, repr),
        None => false,
    }
}

/// The first place under the key whose socket takes the datagram.
pub(crate) fn first_under<C: Context, G: TsvalSource>(
    slots: &[Slot<'_, G>],
    index: &Index,
    key: Entry,
    cx: &C,
    ip: &IpRepr,
    repr: &UdpRepr,
) -> Option<usize> {
    let _count = slots.len(); // for its bound
    for p in index.lower(key)..index.len() {
        let entry = index.get(p);
        match stands(entry, key) {
            Side::Before => {}
            Side::Under => {
                if takes_at(slots, entry.place, cx, ip, repr) {
                    return Some(entry.place);
                }
            }
            Side::Behind => return None,
        }
    }
    None
}
