// Made from crates/socket_script/src/packet.rt by rust/translate: change it there.
//! Packets that were emitted or are written by hand. They own their bytes.

use crate::kit::alloc::{AllocError, Global};
use crate::kit::{Vec, vec};
use crate::proved::control_wire::{IcmpRepr, TcpRepr, UdpRepr};
use crate::proved::ip_wire::{ChecksumCapabilities, IpAddress, IpProtocol, IpRepr};

/// What a packet carries.
#[derive(Clone, Copy)]
pub enum Kind {
    /// A TCP segment: its header, whose payload is left empty.
    Tcp(TcpRepr<'static>),
    /// A UDP datagram.
    Udp(UdpRepr),
    /// An ICMP message, as its bytes.
    Icmp,
    /// Anything else.
    Raw,
}

/// A packet: its header, what it carries, and the bytes of that.
pub struct Packet {
    /// The IP header.
    pub ip: IpRepr,
    /// What it carries.
    pub kind: Kind,
    /// The payload of a segment or a datagram, or the bytes of a message.
    pub payload: Vec<u8>,
}

impl Packet {
    /// A packet with these bytes.
    pub fn new(alloc: Global, ip: IpRepr, kind: Kind, bytes: &[u8]) -> Result<Packet, AllocError> {
        let payload = Vec::from_slice(alloc, bytes)?;
        Ok(Packet { ip, kind, payload })
    }

    /// A copy of the packet.
    pub fn again(&self, alloc: Global) -> Result<Packet, AllocError> {
        Packet::new(alloc, self.ip, self.kind, self.payload.as_slice())
    }

    /// A packet with a segment.
    pub fn of_segment(alloc: Global, ip: IpRepr, repr: &TcpRepr<'_>) -> Result<Packet, AllocError> {
        Packet::new(alloc, ip, Kind::Tcp(repr.without_payload()), repr.payload)
    }

    /// A packet with an ICMP message.
    pub fn of_message(alloc: Global, ip: IpRepr, repr: &IcmpRepr<'_>) -> Result<Packet, AllocError> {
        let payload = message_bytes(alloc, &ip, repr)?;
        Ok(Packet { ip, kind: Kind::Icmp, payload })
    }
}

// The bytes of a message, with its checksum.
fn message_bytes(alloc: Global, ip: &IpRepr, repr: &IcmpRepr<'_>) -> Result<Vec<u8>, AllocError> {
    let mut bytes = vec![in alloc; 0u8; repr.buffer_len()]?;
    let caps = ChecksumCapabilities::default();
    match (repr, ip) {
        (IcmpRepr::Ipv4(repr), _) => repr.emit(bytes.as_mut_slice(), &caps),
        (IcmpRepr::Ipv6(repr), IpRepr::Ipv6(ip)) => {
            repr.emit(&ip.src_addr, &ip.dst_addr, bytes.as_mut_slice(), &caps);
        }
        (IcmpRepr::Ipv6(_), IpRepr::Ipv4(_)) => {}
    }
    Ok(bytes)
}

/// A header between two addresses; none where they are of different versions.
pub fn header(
    src: IpAddress,
    dst: IpAddress,
    protocol: IpProtocol,
    payload_len: usize,
    hop_limit: u8,
) -> Option<IpRepr> {
    match (src, dst) {
        (IpAddress::Ipv4(_), IpAddress::Ipv4(_)) | (IpAddress::Ipv6(_), IpAddress::Ipv6(_)) => {
            Some(IpRepr::new(src, dst, protocol, payload_len, hop_limit))
        }
        _ => None,
    }
}
