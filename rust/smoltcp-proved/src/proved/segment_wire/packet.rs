// Made from crates/segment_wire/src/packet.rt by rust/translate: change it there.
//! IP packets of both versions that carry a TCP segment or a UDP datagram.

use crate::proved::control_wire::{TcpRepr, UdpRepr};
use crate::proved::ip_wire::octets::put;
use crate::proved::ip_wire::{
    ChecksumCapabilities, Error, IpAddress, IpRepr, IpVersion, Ipv4Packet, Ipv4Repr, Ipv6Packet, Ipv6Repr,
};
use crate::proved::segment_wire::{tcp, udp};

/// Writes an IP header and a segment behind it, whose bytes the header counts.
pub fn emit_tcp(ip: &IpRepr, repr: &TcpRepr<'_>, buffer: &mut [u8], caps: &ChecksumCapabilities) {
    emit_tcp_with(ip, repr, repr.header_len(), buffer, caps);
}

/// Writes a packet as `emit_tcp`, where the caller knows how many bytes the segment's header has with its options.
pub fn emit_tcp_with(
    ip: &IpRepr,
    repr: &TcpRepr<'_>,
    header_len: usize,
    buffer: &mut [u8],
    caps: &ChecksumCapabilities,
) {
    put_payload(buffer, ip.header_len() + header_len, repr.payload);
    emit_headers(ip, repr, header_len, buffer, caps);
}

// Writes a payload up to the end. Most segments have none, for which no bytes are copied.
fn put_payload(buffer: &mut [u8], at: usize, payload: &[u8]) {
    if payload.is_empty() {
        return;
    }
    put(buffer, at, payload);
}

/// Writes an IP header and the header of a segment before a copy of its payload, which stands in `buffer` already,
/// behind as many bytes as both headers have. The packet is then that of [`emit_tcp`].
pub fn emit_tcp_front(ip: &IpRepr, repr: &TcpRepr<'_>, buffer: &mut [u8], caps: &ChecksumCapabilities) {
    emit_headers(ip, repr, repr.header_len(), buffer, caps);
}

// Writes both headers, where the segment's has this length.
fn emit_headers(
    ip: &IpRepr,
    repr: &TcpRepr<'_>,
    header_len: usize,
    buffer: &mut [u8],
    caps: &ChecksumCapabilities,
) {
    ip.emit(buffer, caps);
    let start = ip.header_len();
    tcp::emit_behind(ip, repr, header_len, &mut buffer[start..], caps);
}

/// Writes an IP header and a datagram behind it, whose bytes the header counts.
#[inline(always)]
pub fn emit_udp(ip: &IpRepr, repr: &UdpRepr, payload: &[u8], buffer: &mut [u8], caps: &ChecksumCapabilities) {
    ip.emit(buffer, caps);
    let start = ip.header_len();
    udp::emit(repr, payload, &mut buffer[start..], &ip.src_addr(), &ip.dst_addr(), caps);
}

/// The header of a packet and the segment that it carries.
///
/// # Errors
/// An error where its lengths do not fit, a tested checksum of its IPv4 header fails, it is a fragment, its protocol is
/// not TCP, or [`tcp::parse`] refuses the segment. Options of IPv4 are skipped; an extension header of IPv6, also that
/// of a fragment, is another protocol. No address is looked at.
pub fn parse_tcp<'a>(packet: &'a [u8], caps: &ChecksumCapabilities) -> Result<(IpRepr, TcpRepr<'a>), Error> {
    let Some((ip, bytes)) = carried_if(packet, 6, caps) else {
        return Err(Error);
    };
    let repr = tcp::parse_behind(&ip, bytes, caps)?;
    Ok((ip, repr))
}

/// Reads a packet, as [`parse_tcp`], into `ip` and `repr`. Whether it carries a segment: else they say nothing.
///
/// An answer that is handed up by value is copied at each return.
pub fn read_tcp<'a>(
    packet: &'a [u8],
    caps: &ChecksumCapabilities,
    ip: &mut IpRepr,
    repr: &mut TcpRepr<'a>,
) -> bool {
    match IpVersion::of_packet(packet) {
        Ok(IpVersion::Ipv4) => read_v4(packet, caps, ip, repr),
        Ok(IpVersion::Ipv6) => read_v6(packet, caps, ip, repr),
        Err(Error) => false,
    }
}

fn read_v4<'a>(
    packet: &'a [u8],
    caps: &ChecksumCapabilities,
    ip: &mut IpRepr,
    repr: &mut TcpRepr<'a>,
) -> bool {
    let Some((header, bytes)) = whole_v4(packet, caps) else {
        return false;
    };
    if u8::from(header.next_header) != 6 {
        return false;
    }
    *ip = IpRepr::Ipv4(header);
    let src = IpAddress::Ipv4(header.src_addr);
    let dst = IpAddress::Ipv4(header.dst_addr);
    tcp::parse_into(repr, bytes, &src, &dst, caps)
}

// The header of a whole packet, and what stands behind it.
#[inline(always)]
fn whole_v4<'a>(packet: &'a [u8], caps: &ChecksumCapabilities) -> Option<(Ipv4Repr, &'a [u8])> {
    let packet = Ipv4Packet::new_checked(packet).ok()?;
    if is_fragment(&packet) {
        return None;
    }
    let repr = Ipv4Repr::parse(&packet, caps).ok()?;
    Some((repr, packet.payload()))
}

fn read_v6<'a>(
    packet: &'a [u8],
    caps: &ChecksumCapabilities,
    ip: &mut IpRepr,
    repr: &mut TcpRepr<'a>,
) -> bool {
    let Some((header, bytes)) = whole_v6(packet) else {
        return false;
    };
    if u8::from(header.next_header) != 6 {
        return false;
    }
    *ip = IpRepr::Ipv6(header);
    let src = IpAddress::Ipv6(header.src_addr);
    let dst = IpAddress::Ipv6(header.dst_addr);
    tcp::parse_into(repr, bytes, &src, &dst, caps)
}

#[inline(always)]
fn whole_v6(packet: &[u8]) -> Option<(Ipv6Repr, &[u8])> {
    let packet = Ipv6Packet::new_checked(packet).ok()?;
    let repr = Ipv6Repr::parse(&packet).ok()?;
    Some((repr, packet.payload()))
}

/// The header of a packet, and the header and the payload of the datagram that it carries.
///
/// # Errors
/// An error where its lengths do not fit, a tested checksum of its IPv4 header fails, it is a fragment, its protocol is
/// not UDP, or [`udp::parse`] refuses the datagram. Options, extension headers and addresses as in [`parse_tcp`].
pub fn parse_udp<'a>(
    packet: &'a [u8],
    caps: &ChecksumCapabilities,
) -> Result<(IpRepr, UdpRepr, &'a [u8]), Error> {
    let Some((ip, bytes)) = carried_if(packet, 17, caps) else {
        return Err(Error);
    };
    let (repr, payload) = udp::parse(bytes, &ip.src_addr(), &ip.dst_addr(), caps)?;
    Ok((ip, repr, payload))
}

/// Reads a packet, as [`parse_udp`], into `ip`, `repr` and `payload`. Whether it carries a datagram: else they say
/// nothing.
///
/// An answer that is handed up by value is copied at each return.
pub fn read_udp<'a>(
    packet: &'a [u8],
    caps: &ChecksumCapabilities,
    ip: &mut IpRepr,
    repr: &mut UdpRepr,
    payload: &mut &'a [u8],
) -> bool {
    match IpVersion::of_packet(packet) {
        Ok(IpVersion::Ipv4) => read_udp_v4(packet, caps, ip, repr, payload),
        Ok(IpVersion::Ipv6) => read_udp_v6(packet, caps, ip, repr, payload),
        Err(Error) => false,
    }
}

fn read_udp_v4<'a>(
    packet: &'a [u8],
    caps: &ChecksumCapabilities,
    ip: &mut IpRepr,
    repr: &mut UdpRepr,
    payload: &mut &'a [u8],
) -> bool {
    let Some((header, bytes)) = whole_v4(packet, caps) else {
        return false;
    };
    if u8::from(header.next_header) != 17 {
        return false;
    }
    *ip = IpRepr::Ipv4(header);
    let src = IpAddress::Ipv4(header.src_addr);
    let dst = IpAddress::Ipv4(header.dst_addr);
    udp::parse_into(repr, payload, bytes, &src, &dst, caps)
}

fn read_udp_v6<'a>(
    packet: &'a [u8],
    caps: &ChecksumCapabilities,
    ip: &mut IpRepr,
    repr: &mut UdpRepr,
    payload: &mut &'a [u8],
) -> bool {
    let Some((header, bytes)) = whole_v6(packet) else {
        return false;
    };
    if u8::from(header.next_header) != 17 {
        return false;
    }
    *ip = IpRepr::Ipv6(header);
    let src = IpAddress::Ipv6(header.src_addr);
    let dst = IpAddress::Ipv6(header.dst_addr);
    udp::parse_into(repr, payload, bytes, &src, &dst, caps)
}

// The header and what stands behind it, where that is of this protocol.
fn carried_if<'a>(packet: &'a [u8], protocol: u8, caps: &ChecksumCapabilities) -> Option<(IpRepr, &'a [u8])> {
    let (ip, bytes) = carried(packet, caps)?;
    if u8::from(ip.next_header()) != protocol {
        return None;
    }
    Some((ip, bytes))
}

/// The header of a packet of either version, and what stands behind it.
///
/// None where its lengths do not fit, a tested checksum of its IPv4 header fails, or it is a fragment of IPv4. Bytes
/// behind the packet's end are left away.
pub fn carried<'a>(packet: &'a [u8], caps: &ChecksumCapabilities) -> Option<(IpRepr, &'a [u8])> {
    match IpVersion::of_packet(packet).ok()? {
        IpVersion::Ipv4 => carried_v4(packet, caps),
        IpVersion::Ipv6 => carried_v6(packet),
    }
}

fn carried_v4<'a>(packet: &'a [u8], caps: &ChecksumCapabilities) -> Option<(IpRepr, &'a [u8])> {
    let (repr, bytes) = whole_v4(packet, caps)?;
    Some((IpRepr::Ipv4(repr), bytes))
}

/// Whether a packet is a fragment, that is, whether its payload is one of several pieces of another packet's: more
/// fragments follow (MF is set), or its offset is not 0 (RFC 791, section 3.1). The other two flags do not matter.
pub fn is_fragment(packet: &Ipv4Packet<'_>) -> bool {
    let (flags, low) = (packet.buffer[6], packet.buffer[7]);
    let more_follow = flags / 32 % 2 == 1;
    let offset = 256 * (flags % 32) as u16 + low as u16;
    more_follow || offset != 0
}

fn carried_v6(packet: &[u8]) -> Option<(IpRepr, &[u8])> {
    let (repr, bytes) = whole_v6(packet)?;
    Some((IpRepr::Ipv6(repr), bytes))
}
