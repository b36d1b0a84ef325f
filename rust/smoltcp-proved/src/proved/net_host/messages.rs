// Made from crates/net_host/src/messages.rt by rust/translate: change it there.
//! ICMP messages: which sockets take a copy, and what answers one.

use crate::kit::Vec;
use crate::proved::host_bounds::Bounds;
use crate::proved::host_index::Index;
use crate::proved::net_host::filing::icmp_key;
use crate::proved::net_host::find::next_under;
use crate::proved::net_host::slot::Slot;
use crate::proved::net_host::touched::touch_if;
use crate::sockets::sock_tcp::TsvalSource;
use crate::sockets::wire::{
    ChecksumCapabilities, IcmpRepr, Icmpv4Repr, Icmpv6Repr, IpProtocol, IpRepr, Ipv4Repr, Ipv6Repr,
};
use crate::sockets::{Context, Socket, icmp};

/// A message with the header of its packet.
#[derive(Clone, Copy)]
pub enum Mail<'p> {
    V4(Ipv4Repr, Icmpv4Repr<'p>),
    V6(Ipv6Repr, Icmpv6Repr<'p>),
}

/// The message that stands behind a header.
pub(crate) fn mail_in<'p>(caps: &ChecksumCapabilities, ip: &IpRepr, bytes: &'p [u8]) -> Option<Mail<'p>> {
    match ip {
        IpRepr::Ipv4(ip) => mail_v4(caps, ip, bytes),
        IpRepr::Ipv6(ip) => mail_v6(caps, ip, bytes),
    }
}

fn mail_v4<'p>(caps: &ChecksumCapabilities, ip: &Ipv4Repr, bytes: &'p [u8]) -> Option<Mail<'p>> {
    if u8::from(ip.next_header) != 1 {
        return None;
    }
    let repr = Icmpv4Repr::parse(bytes, caps).ok()?;
    Some(Mail::V4(*ip, repr))
}

fn mail_v6<'p>(caps: &ChecksumCapabilities, ip: &Ipv6Repr, bytes: &'p [u8]) -> Option<Mail<'p>> {
    if u8::from(ip.next_header) != 58 {
        return None;
    }
    let repr = Icmpv6Repr::parse(&ip.src_addr, &ip.dst_addr, bytes, caps).ok()?;
    Some(Mail::V6(*ip, repr))
}

impl<'a, G: TsvalSource> Slot<'a, G> {
    // Whether it took one.
    fn copy_message<C: Context>(&mut self, cx: &C, mail: &Mail<'_>) -> bool {
        match &mut self.socket {
            Some(Socket::Icmp(icmp)) => copy(icmp, cx, mail),
            _ => false,
        }
    }
}

fn copy<C: Context>(socket: &mut icmp::Socket<'_>, cx: &C, mail: &Mail<'_>) -> bool {
    match mail {
        Mail::V4(ip, repr) => {
            if !socket.accepts_v4(cx, ip, repr) {
                return false;
            }
            socket.process_v4(cx, ip, repr);
            true
        }
        Mail::V6(ip, repr) => {
            if !socket.accepts_v6(cx, ip, repr) {
                return false;
            }
            socket.process_v6(cx, ip, repr);
            true
        }
    }
}

// Each ICMP socket that accepts the message takes a copy: a walk through all places.
fn copy_to_all<C: Context, G: TsvalSource>(
    slots: &mut Vec<Slot<'_, G>>,
    bounds: &mut Bounds,
    cx: &C,
    mail: &Mail<'_>,
) {
    for i in 0..slots.len() {
        copy_at(slots, bounds, i, cx, mail);
    }
}

fn copy_at<C: Context, G: TsvalSource>(
    slots: &mut Vec<Slot<'_, G>>,
    bounds: &mut Bounds,
    i: usize,
    cx: &C,
    mail: &Mail<'_>,
) {
    let took = slots[i].copy_message(cx, mail);
    touch_if(bounds, i, took);
}

// A copy for each ICMP socket, by the places of ICMP sockets alone, where each place is filed.
fn copy_to_listed<C: Context, G: TsvalSource>(
    slots: &mut Vec<Slot<'_, G>>,
    bounds: &mut Bounds,
    index: &Index,
    cx: &C,
    mail: &Mail<'_>,
) {
    let key = icmp_key();
    let end = slots.len();
    let mut from = 0;
    while let Some(i) = next_under(index, key, from, end) {
        copy_at(slots, bounds, i, cx, mail);
        from = i + 1;
    }
}

/// Each ICMP socket that accepts the message takes a copy. Where each place is filed, the others are not looked at.
pub(crate) fn copy_to<C: Context, G: TsvalSource>(
    slots: &mut Vec<Slot<'_, G>>,
    bounds: &mut Bounds,
    index: &Index,
    complete: bool,
    cx: &C,
    mail: &Mail<'_>,
) {
    if complete {
        copy_to_listed(slots, bounds, index, cx, mail);
    } else {
        copy_to_all(slots, bounds, cx, mail);
    }
}

/// The answer to an echo request, with the header that takes it back; none to any other message.
pub(crate) fn echoed<'p>(mail: &Mail<'p>) -> Option<Mail<'p>> {
    match mail {
        Mail::V4(ip, Icmpv4Repr::EchoRequest { ident, seq_no, body }) => Some(Mail::V4(
            Ipv4Repr {
                src_addr: ip.dst_addr,
                dst_addr: ip.src_addr,
                next_header: IpProtocol::Icmp,
                payload_len: 8 + body.len(),
                hop_limit: 64,
            },
            Icmpv4Repr::EchoReply { ident: *ident, seq_no: *seq_no, body: *body },
        )),
        Mail::V6(ip, Icmpv6Repr::EchoRequest { ident, seq_no, body }) => Some(Mail::V6(
            Ipv6Repr {
                src_addr: ip.dst_addr,
                dst_addr: ip.src_addr,
                next_header: IpProtocol::Icmpv6,
                payload_len: 8 + body.len(),
                hop_limit: 64,
            },
            Icmpv6Repr::EchoReply { ident: *ident, seq_no: *seq_no, body: *body },
        )),
        _ => None,
    }
}

/// Writes the packet of an answer, if any, at the beginning of `out`, and answers its length, or 0. One that does not
/// fit `room` bytes, or the buffer, is left out.
pub(crate) fn put_answer(
    answer: &Option<Mail<'_>>,
    room: usize,
    out: &mut [u8],
    caps: &ChecksumCapabilities,
) -> usize {
    match answer {
        None => 0,
        Some(mail) => put_short(mail, room.min(out.len()), out, caps),
    }
}

fn put_short(mail: &Mail<'_>, room: usize, out: &mut [u8], caps: &ChecksumCapabilities) -> usize {
    let Some(len) = len_within(mail, room) else {
        return 0;
    };
    put_mail(mail, &mut out[..len], caps);
    len
}

// The length of its packet, where it fits.
fn len_within(mail: &Mail<'_>, room: usize) -> Option<usize> {
    match mail {
        Mail::V4(_, repr) => sum_within(20, repr.buffer_len(), room),
        Mail::V6(_, repr) => sum_within(40, repr.buffer_len(), room),
    }
}

fn sum_within(header: usize, body: usize, room: usize) -> Option<usize> {
    if room < header || room - header < body {
        return None;
    }
    Some(header + body)
}

fn put_mail(mail: &Mail<'_>, out: &mut [u8], caps: &ChecksumCapabilities) {
    match mail {
        Mail::V4(header, repr) => put_v4(&IpRepr::Ipv4(*header), repr, out, caps),
        Mail::V6(header, repr) => put_v6(&IpRepr::Ipv6(*header), header, repr, out, caps),
    }
}

fn put_v4(ip: &IpRepr, repr: &Icmpv4Repr<'_>, out: &mut [u8], caps: &ChecksumCapabilities) {
    ip.emit(out, caps);
    let start = ip.header_len();
    repr.emit(&mut out[start..], caps);
}

fn put_v6(
    ip: &IpRepr,
    header: &Ipv6Repr,
    repr: &Icmpv6Repr<'_>,
    out: &mut [u8],
    caps: &ChecksumCapabilities,
) {
    ip.emit(out, caps);
    let start = ip.header_len();
    repr.emit(&header.src_addr, &header.dst_addr, &mut out[start..], caps);
}

/// Writes the packet of a message at the beginning of `out`, and answers its length.
pub(crate) fn put_message(
    ip: &IpRepr,
    repr: &IcmpRepr<'_>,
    out: &mut [u8],
    caps: &ChecksumCapabilities,
) -> usize {
    let whole = ip.header_len() + ip.payload_len();
    write_message(ip, repr, &mut out[..whole], caps);
    whole
}

fn write_message(ip: &IpRepr, repr: &IcmpRepr<'_>, out: &mut [u8], caps: &ChecksumCapabilities) {
    match (ip, repr) {
        (IpRepr::Ipv4(_), IcmpRepr::Ipv4(repr)) => put_v4(ip, repr, out, caps),
        (IpRepr::Ipv6(header), IcmpRepr::Ipv6(repr)) => put_v6(ip, header, repr, out, caps),
        _ => {}
    }
}
