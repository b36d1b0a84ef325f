// Made from crates/two_hosts/src/packet.rt by rust/translate: change it there.
//! Packets on the wire, and what they carry.

use smoltcp_proved::kit::alloc::{AllocError, Global};
use smoltcp_proved::kit::{Vec, vec};
use smoltcp_proved::proved::segment_wire::packet::{carried, parse_tcp, parse_udp};
use smoltcp_proved::sockets::wire::{ChecksumCapabilities, Icmpv4Repr, IpProtocol, IpRepr, TcpRepr, UdpRepr};

/// What a packet carries.
pub enum Body<'a> {
    /// A TCP segment.
    Tcp(TcpRepr<'a>),
    /// A UDP datagram, with this many bytes of payload.
    Udp(UdpRepr, usize),
    /// An ICMP message, as its bytes.
    Icmp(&'a [u8]),
    /// Anything else, of so many bytes.
    Raw(usize),
}

/// The header of a packet, and what it carries; none where it is malformed.
pub fn read(packet: &[u8]) -> Option<(IpRepr, Body<'_>)> {
    let caps = ChecksumCapabilities::default();
    let (ip, payload) = carried(packet, &caps)?;
    let body = match ip.next_header() {
        IpProtocol::Tcp => Body::Tcp(parse_tcp(packet, &caps).ok()?.1),
        IpProtocol::Udp => {
            let (_, repr, bytes) = parse_udp(packet, &caps).ok()?;
            Body::Udp(repr, bytes.len())
        }
        IpProtocol::Icmp => Body::Icmp(payload),
        _ => Body::Raw(payload.len()),
    };
    Some((ip, body))
}

/// The bytes of an ICMP message, with its checksum.
pub fn icmp_bytes(alloc: Global, repr: &Icmpv4Repr<'_>) -> Result<Vec<u8>, AllocError> {
    let mut bytes = vec![in alloc; 0u8; repr.buffer_len()]?;
    repr.emit(bytes.as_mut_slice(), &ChecksumCapabilities::default());
    Ok(bytes)
}
