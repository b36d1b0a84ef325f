// Made from crates/net_host/src/arrival.rt by rust/translate: change it there.
//! Whether a packet is looked at, by its addresses.

use crate::proved::host_groups::Groups;
use crate::proved::net_host::counters::Reason;
use crate::sockets::Context;
use crate::sockets::wire::{IpAddress, IpProtocol, IpRepr, Ipv4Address, Ipv6Address};

/// Why the packet is dropped, if it is: its source is one that no single other host has, so that an answer would go to
/// many, to nobody, or come back (RFC 1122, section 3.2.1.3); or its destination is neither
/// an address of the interface (`own`) nor a broadcast, nor a group that was joined.
#[inline(always)]
pub(crate) fn refusal<C: Context>(cx: &C, own: bool, groups: &Groups, ip: &IpRepr) -> Option<Reason> {
    if is_martian(cx, &ip.src_addr()) {
        return Some(Reason::Source);
    }
    if own {
        return None;
    }
    refusal_elsewhere(cx, groups, ip)
}

// Why the packet is dropped, where its source is none of these, and its destination no own address.
// Not inlined, as few packets come here.
#[inline(never)]
fn refusal_elsewhere<C: Context>(cx: &C, groups: &Groups, ip: &IpRepr) -> Option<Reason> {
    let to = ip.dst_addr();
    if !cx.is_broadcast(&to) && !groups.has(&to) {
        return Some(Reason::Destination);
    }
    None
}

#[inline(always)]
fn is_martian<C: Context>(cx: &C, addr: &IpAddress) -> bool {
    addr.is_multicast() || cx.is_broadcast(addr) || cx.has_ip_addr(*addr) || is_reserved(addr)
}

fn is_reserved(addr: &IpAddress) -> bool {
    match addr {
        IpAddress::Ipv4(addr) => is_reserved_v4(addr),
        IpAddress::Ipv6(addr) => is_reserved_v6(addr),
    }
}

fn is_reserved_v4(addr: &Ipv4Address) -> bool {
    addr.octets()[0] == 0 || addr.octets()[0] == 127 || 240 <= addr.octets()[0]
}

fn is_reserved_v6(addr: &Ipv6Address) -> bool {
    all_zero(&addr.octets()[..10])
        && (addr.octets()[10] == 0 && addr.octets()[11] == 0
            || addr.octets()[10] == 255 && addr.octets()[11] == 255)
}

fn all_zero(octets: &[u8]) -> bool {
    octets.iter().all(|octet: &u8| *octet == 0)
}

/// What a packet is looked at as.
#[derive(Debug, Clone, Copy, PartialEq, Eq)]
pub enum Kind {
    /// A TCP segment, to the interface alone.
    Tcp,
    /// A UDP datagram.
    Udp,
    /// An ICMP message of either version, to the interface alone.
    Icmp,
    /// Another protocol.
    Other,
    /// A broadcast or a packet to a group that carries no UDP datagram.
    Foreign,
}

/// What the packet is looked at as; `own` says whether it goes to an address of the interface. A TCP segment, as most,
/// is told by one look.
#[inline(always)]
pub(crate) fn kind_in(own: bool, ip: &IpRepr) -> Kind {
    match (own, ip.next_header()) {
        (true, IpProtocol::Tcp) => Kind::Tcp,
        (own, protocol) => kind_by(own, protocol),
    }
}

// Not inlined, so that what a segment of TCP runs through stays short.
#[inline(never)]
fn kind_by(own: bool, protocol: IpProtocol) -> Kind {
    kind_of(own, u8::from(protocol))
}

fn kind_of(own: bool, number: u8) -> Kind {
    if number == 17 {
        return Kind::Udp;
    }
    if !own {
        return Kind::Foreign;
    }
    match number {
        6 => Kind::Tcp,
        1 | 58 => Kind::Icmp,
        _ => Kind::Other,
    }
}
