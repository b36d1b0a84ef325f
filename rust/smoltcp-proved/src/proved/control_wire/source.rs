// Made from crates/control_wire/src/source.rt by rust/translate: change it there.
//! The source ports of UDP datagrams and TCP segments that are whole.

use crate::proved::ip_wire::octets::{be16_at, word};
use crate::proved::ip_wire::sum::{pseudo_sum, sum_after};
use crate::proved::ip_wire::{ChecksumCapabilities, IpAddress};

/// The source port of a UDP datagram (RFC 768).
///
/// None unless its length is from 8 to the bytes that there are, its destination port is not 0, and, where received
/// checksums are tested, its checksum over as many bytes as its length verifies. A checksum of 0 is not tested over
/// IPv4.
pub fn udp_source(
    bytes: &[u8],
    src: &IpAddress,
    dst: &IpAddress,
    caps: &ChecksumCapabilities,
) -> Option<u16> {
    if !is_datagram(bytes) || (caps.udp.rx() && !udp_sum_holds(bytes, src, dst)) {
        return None;
    }
    Some(word(bytes[0], bytes[1]))
}

fn is_datagram(bytes: &[u8]) -> bool {
    if bytes.len() < 8 {
        return false;
    }
    let length = be16_at(bytes, 4);
    8 <= length && length <= bytes.len() && be16_at(bytes, 2) != 0
}

fn udp_sum_holds(bytes: &[u8], src: &IpAddress, dst: &IpAddress) -> bool {
    (both_ipv4(src, dst) && be16_at(bytes, 6) == 0) || sum_holds(&bytes[..be16_at(bytes, 4)], src, dst, 17)
}

fn both_ipv4(src: &IpAddress, dst: &IpAddress) -> bool {
    match (src, dst) {
        (IpAddress::Ipv4(_), IpAddress::Ipv4(_)) => true,
        _ => false,
    }
}

/// Whether the checksum in `bytes`, a whole segment or datagram, verifies with the pseudo header (RFC 9293, section
/// 3.1; RFC 768).
pub fn sum_holds(bytes: &[u8], src: &IpAddress, dst: &IpAddress, protocol: u8) -> bool {
    sum_after(pseudo_sum(src, dst, protocol, bytes.len()), bytes) == 0xffff
}

/// The source port of a TCP segment (RFC 9293, section 3.1).
///
/// None unless its header has at least 20 bytes and no more than there are, no port is 0, at most one of FIN, SYN and
/// RST is set, the options are well formed up to the one that ends them, and, where received checksums are tested, the
/// checksum verifies.
pub fn tcp_source(
    bytes: &[u8],
    src: &IpAddress,
    dst: &IpAddress,
    caps: &ChecksumCapabilities,
) -> Option<u16> {
    if !is_segment(bytes) || (caps.tcp.rx() && !sum_holds(bytes, src, dst, 6)) {
        return None;
    }
    Some(word(bytes[0], bytes[1]))
}

fn is_segment(bytes: &[u8]) -> bool {
    if bytes.len() < 20 {
        return false;
    }
    let header = (bytes[12] / 16) as usize * 4;
    if header < 20 || bytes.len() < header {
        return false;
    }
    be16_at(bytes, 0) != 0
        && be16_at(bytes, 2) != 0
        && at_most_one(bytes[13] % 8)
        && options_are_well_formed(&bytes[20..header])
}

/// Whether of FIN, SYN and RST, the three low bits of a segment's flags, at most one is set.
pub fn at_most_one(control: u8) -> bool {
    control == 0 || control == 1 || control == 2 || control == 4
}

fn options_are_well_formed(options: &[u8]) -> bool {
    let mut at = 0;
    while at + 1 < options.len() {
        if options[at] == 0 {
            return true;
        }
        let Some(length) = option_len(options[at], options[at + 1], options.len() - at) else {
            return false;
        };
        at += length;
    }
    at == options.len() || options[at] <= 1
}

// How many bytes the option takes that begins with these two, of `room` bytes that are left.
fn option_len(kind: u8, length: u8, room: usize) -> Option<usize> {
    if kind == 1 {
        Some(1)
    } else if is_option(kind, length) && length as usize <= room {
        Some(length as usize)
    } else {
        None
    }
}

/// Whether an option of this kind may have this length, in bytes with its kind and its length (RFC 9293, section 3.2;
/// RFC 7323, sections 2.2 and 3.2; RFC 2018, sections 2 and 3). An unknown kind has 2 at least.
pub fn is_option(kind: u8, length: u8) -> bool {
    match kind {
        2 => length == 4,
        3 => length == 3,
        4 => length == 2,
        8 => length == 10,
        5 => length == 10 || length == 18 || length == 26 || length == 34,
        _ => 2 <= length,
    }
}
