// Made from crates/net_host/src/passing.rt by rust/translate: change it there.
//! A packet behind its extension headers.

use crate::proved::ip_extensions::{Behind, behind_headers};
use crate::sockets::wire::{IpProtocol, IpRepr, Ipv6Repr};

/// The packet without the extension headers of IPv6; none where it is a fragment, a routing header names further
/// nodes, or a header is malformed (RFC 8200, section 4).
pub(crate) fn passed<'p>(ip: &IpRepr, bytes: &'p [u8]) -> Option<(IpRepr, &'p [u8])> {
    match ip {
        IpRepr::Ipv4(header) => Some((IpRepr::Ipv4(*header), bytes)),
        IpRepr::Ipv6(header) => passed_v6(header, bytes),
    }
}

// Not inlined, so that what a packet of IPv4 runs through stays short.
#[inline(never)]
fn passed_v6<'p>(header: &Ipv6Repr, bytes: &'p [u8]) -> Option<(IpRepr, &'p [u8])> {
    match behind_headers(u8::from(header.next_header), bytes) {
        Behind::Carried(next, bytes) => Some((
            IpRepr::Ipv6(Ipv6Repr {
                src_addr: header.src_addr,
                dst_addr: header.dst_addr,
                next_header: IpProtocol::from(next),
                payload_len: bytes.len(),
                hop_limit: header.hop_limit,
            }),
            bytes,
        )),
        _ => None,
    }
}
