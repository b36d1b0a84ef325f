// Made from crates/net_host/src/unreachable.rt by rust/translate: change it there.
//! What tells a sender that nobody takes its packet.

use crate::proved::host_index::Index;
use crate::proved::net_host::filing::{number_of, raw_key};
use crate::proved::net_host::find::next_under;
use crate::proved::net_host::limit::Limit;
use crate::proved::net_host::messages::{Mail, put_answer};
use crate::proved::net_host::set::SocketSet;
use crate::proved::net_host::slot::Slot;
use crate::sockets::sock_tcp::TsvalSource;
use crate::sockets::time::Instant;
use crate::sockets::wire::{
    ChecksumCapabilities, Icmpv4Repr, Icmpv6Repr, IpProtocol, IpRepr, Ipv4Repr, Ipv6Repr,
};
use crate::sockets::{Context, Socket};

// The longest errors, in bytes (RFC 1812, section 4.3.2.3; RFC 4443, section 2.4 c).
const LONGEST_V4: usize = 576;

const LONGEST_V6: usize = 1280;

/// What nobody takes.
#[derive(Clone, Copy)]
pub enum Unmet {
    /// A datagram to this port (RFC 1122, section 4.1.3.1; RFC 4443, section 3.1).
    Port,
    /// A packet of this protocol (RFC 1122, section 3.2.2.1; RFC 4443, section 3.4).
    Protocol,
}

// What an error quotes behind the header: as much as the longest error leaves.
fn quoted_v4(bytes: &[u8], mtu: usize) -> &[u8] {
    let room = mtu.min(LONGEST_V4).saturating_sub(48);
    &bytes[..room.min(bytes.len())]
}

fn quoted_v6(bytes: &[u8], mtu: usize) -> &[u8] {
    let room = mtu.min(LONGEST_V6).saturating_sub(88);
    &bytes[..room.min(bytes.len())]
}

fn error_v4<'p>(reason: u8, ip: &Ipv4Repr, body: &'p [u8]) -> Mail<'p> {
    let header = Ipv4Repr {
        src_addr: ip.dst_addr,
        dst_addr: ip.src_addr,
        next_header: IpProtocol::Icmp,
        payload_len: 28 + body.len(),
        hop_limit: 64,
    };
    let repr = Icmpv4Repr::DstUnreachable { reason, header: *ip, body };
    Mail::V4(header, repr)
}

fn header_v6(ip: &Ipv6Repr, body: &[u8]) -> Ipv6Repr {
    Ipv6Repr {
        src_addr: ip.dst_addr,
        dst_addr: ip.src_addr,
        next_header: IpProtocol::Icmpv6,
        payload_len: 48 + body.len(),
        hop_limit: 64,
    }
}

fn error_v6<'p>(reason: u8, ip: &Ipv6Repr, body: &'p [u8]) -> Mail<'p> {
    let repr = Icmpv6Repr::DstUnreachable { reason, header: *ip, body };
    Mail::V6(header_v6(ip, body), repr)
}

// The number that says that nothing follows (RFC 8200, section 4.7).
const NO_NEXT_HEADER: u8 = 59;

// The offset of the byte of an IPv6 header that names the next one, and the code of a next header that is not known
// (RFC 8200, section 3; RFC 4443, section 3.4).
const NEXT_HEADER_AT: u32 = 6;

const UNKNOWN_NEXT_HEADER: u8 = 1;

// The error for a next header that is not known.
fn problem_of<'p>(ip: &Ipv6Repr, body: &'p [u8]) -> Option<Mail<'p>> {
    if u8::from(ip.next_header) == NO_NEXT_HEADER {
        return None;
    }
    let repr =
        Icmpv6Repr::ParamProblem { reason: UNKNOWN_NEXT_HEADER, pointer: NEXT_HEADER_AT, header: *ip, body };
    Some(Mail::V6(header_v6(ip, body), repr))
}

// The error for a packet that nobody takes.
fn error_of<'p>(unmet: Unmet, ip: &IpRepr, bytes: &'p [u8], mtu: usize) -> Option<Mail<'p>> {
    match (unmet, ip) {
        (Unmet::Port, IpRepr::Ipv4(ip)) => Some(error_v4(3, ip, quoted_v4(bytes, mtu))),
        (Unmet::Protocol, IpRepr::Ipv4(ip)) => Some(error_v4(2, ip, quoted_v4(bytes, mtu))),
        (Unmet::Port, IpRepr::Ipv6(ip)) => Some(error_v6(4, ip, quoted_v6(bytes, mtu))),
        (Unmet::Protocol, IpRepr::Ipv6(ip)) => problem_of(ip, quoted_v6(bytes, mtu)),
    }
}

impl<'a, G: TsvalSource> Slot<'a, G> {
    fn takes_raw(&self, ip: &IpRepr) -> bool {
        match &self.socket {
            Some(Socket::Raw(raw)) => raw.accepts(ip),
            _ => false,
        }
    }
}

// The first raw socket that takes the packet: a walk through all places.
fn walk_for_raw<G: TsvalSource>(slots: &[Slot<'_, G>], ip: &IpRepr) -> Option<usize> {
    for (i, slot) in slots.iter().enumerate() {
        if slot.takes_raw(ip) {
            return Some(i);
        }
    }
    None
}

fn takes_raw_at<G: TsvalSource>(slots: &[Slot<'_, G>], place: usize, ip: &IpRepr) -> bool {
    match slots.get(place) {
        Some(slot) => slot.takes_raw(ip),
        None => false,
    }
}

// The first raw socket that takes it, by the places of raw sockets alone, where each place is filed.
fn listed_raw<G: TsvalSource>(slots: &[Slot<'_, G>], index: &Index, ip: &IpRepr) -> Option<usize> {
    let key = raw_key();
    let end = slots.len();
    let mut from = 0;
    while let Some(i) = next_under(index, key, from, end) {
        if takes_raw_at(slots, i, ip) {
            return Some(i);
        }
        from = i + 1;
    }
    None
}

fn raw_by<G: TsvalSource>(
    slots: &[Slot<'_, G>],
    index: &Index,
    complete: bool,
    ip: &IpRepr,
) -> Option<usize> {
    if complete { listed_raw(slots, index, ip) } else { walk_for_raw(slots, ip) }
}

fn first_raw<G: TsvalSource>(sockets: &mut SocketSet<'_, G>, ip: &IpRepr) -> Option<usize> {
    sockets.settle();
    raw_by(&sockets.slots, &sockets.index, sockets.complete, ip)
}

// The error, for a packet to an own address that no raw socket takes.
fn wanted<'p>(own: bool, raw: bool, error: Option<Mail<'p>>) -> Option<Mail<'p>> {
    if own && !raw { error } else { None }
}

// The error, where the limit allows it.
fn within_limit<'p>(
    limit: &mut Limit,
    ip: &IpRepr,
    now: Instant,
    error: Option<Mail<'p>>,
) -> Option<Mail<'p>> {
    match error {
        None => None,
        Some(mail) => {
            if limit.take(number_of(&ip.src_addr()), now) {
                Some(mail)
            } else {
                None
            }
        }
    }
}

// Whether the sender is told, where no raw socket takes the packet.
fn may_tell(own: bool, error: &Option<Mail<'_>>, limit: &Limit, ip: &IpRepr, now: Instant) -> bool {
    own && error.is_some() && limit.allows(number_of(&ip.src_addr()), now)
}

/// Tells the sender of a packet that nobody takes: writes the error at the beginning of `out`, and answers its length.
/// 0 where the packet is not to an own address, a raw socket takes it, the limit allows no more, there is no such
/// error, or it does not fit the MTU or the buffer. Whether a raw socket takes it is asked last, since that may need a
/// walk.
pub(crate) fn tell_sender<C: Context, G: TsvalSource>(
    sockets: &mut SocketSet<'_, G>,
    cx: &C,
    limit: &mut Limit,
    unmet: Unmet,
    ip: &IpRepr,
    bytes: &[u8],
    out: &mut [u8],
) -> usize {
    let mtu = cx.ip_mtu();
    let own = cx.has_ip_addr(ip.dst_addr());
    let error = error_of(unmet, ip, bytes, mtu);
    if !may_tell(own, &error, limit, ip, cx.now()) {
        return 0;
    }
    let raw = first_raw(sockets, ip);
    let error = wanted(own, raw.is_some(), error);
    let answer = within_limit(limit, ip, cx.now(), error);
    put_answer(&answer, mtu, out, &cx.checksum_caps())
}
