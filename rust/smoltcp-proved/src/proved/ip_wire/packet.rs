// Made from crates/ip_wire/src/packet.rt by rust/translate: change it there.
//! Packets of IPv4 and IPv6: their headers written and read.

use crate::proved::ip_wire::address::{Ipv4Address, Ipv6Address};
use crate::proved::ip_wire::checksum::ChecksumCapabilities;
use crate::proved::ip_wire::malformed::Error;
use crate::proved::ip_wire::octets::{be16, be16_at, put, put_three};
use crate::proved::ip_wire::protocol::IpProtocol;
use crate::proved::ip_wire::repr::{IpRepr, Ipv4Repr, Ipv6Repr};
use crate::proved::ip_wire::sum::{checksum_after, sum_after, sum_of_twenty, sum_with_addresses};

fn emit_ipv6(repr: &Ipv6Repr, buffer: &mut [u8]) {
    let [high, low] = be16(repr.payload_len);
    let protocol = u8::from(repr.next_header);
    let head = [0x60, 0, 0, 0, high, low, protocol, repr.hop_limit];
    put_three(buffer, &head, &repr.src_addr.octets(), &repr.dst_addr.octets());
}

fn emit_ipv4(repr: &Ipv4Repr, buffer: &mut [u8], sent: bool) {
    let protocol = u8::from(repr.next_header);
    let checksum = checksum_if(repr, protocol, sent);
    write_ipv4(repr, protocol, checksum, buffer);
}

// Before the header is written: what was just written in single bytes is read slowly as words.
fn checksum_if(repr: &Ipv4Repr, protocol: u8, sent: bool) -> u16 {
    if sent { 0xffff - header_sum(repr, protocol) } else { 0 }
}

// The sum of the header with a checksum of 0.
fn header_sum(repr: &Ipv4Repr, protocol: u8) -> u16 {
    let length = (repr.payload_len % 0x10000 + 20) % 0x10000;
    let total = 0x8500 + length + 256 * repr.hop_limit as usize + protocol as usize;
    sum_with_addresses(total as u64, &repr.src_addr, &repr.dst_addr)
}

fn write_ipv4(repr: &Ipv4Repr, protocol: u8, checksum: u16, buffer: &mut [u8]) {
    let [high, low] = be16(repr.payload_len % 0x10000 + 20);
    let [first, second] = be16(checksum as usize);
    let hops = repr.hop_limit;
    let head = [0x45, 0, high, low, 0, 0, 0x40, 0, hops, protocol, first, second];
    let (src, dst) = (repr.src_addr.octets(), repr.dst_addr.octets());
    put_three(buffer, &head, &src, &dst);
}

/// An IPv4 packet: a header with options, and a payload. Bytes may follow it.
#[derive(Debug, Clone, Copy, PartialEq, Eq)]
pub struct Ipv4Packet<'a> {
    /// The bytes at whose beginning the packet stands.
    pub buffer: &'a [u8],
}

impl<'a> Ipv4Packet<'a> {
    /// The packet at the beginning of `buffer`.
    ///
    /// # Errors
    /// An error unless the header has at least 20 bytes, and is no longer than the total length, which is no longer
    /// than `buffer`. The version is not looked at.
    pub fn new_checked(buffer: &'a [u8]) -> Result<Ipv4Packet<'a>, Error> {
        if buffer.len() < 20 {
            return Err(Error);
        }
        let header = (buffer[0] % 16) as usize * 4;
        let total = be16_at(buffer, 2);
        if header < 20 || total < header || buffer.len() < total {
            return Err(Error);
        }
        Ok(Ipv4Packet { buffer })
    }

    /// The protocol of the payload.
    pub fn next_header(&self) -> IpProtocol {
        IpProtocol::from(self.buffer[9])
    }

    /// The bytes behind the header and its options, up to the total length.
    pub fn payload(&self) -> &'a [u8] {
        &self.buffer[self.header_len()..be16_at(self.buffer, 2)]
    }

    // How many bytes the header takes with its options.
    fn header_len(&self) -> usize {
        (self.buffer[0] % 16) as usize * 4
    }
}

impl Ipv4Packet<'_> {
    /// Writes a checksum into an IPv4 header, whatever it is.
    pub fn set_checksum(packet: &mut [u8], checksum: u16) {
        write_checksum(packet, checksum);
    }

    /// Writes the checksum of an IPv4 header with its options, so that it verifies.
    pub fn fill_checksum(packet: &mut [u8]) {
        let header = (packet[0] % 16) as usize * 4;
        write_checksum(packet, 0);
        checksum_header(packet, header);
    }
}

fn write_checksum(packet: &mut [u8], checksum: u16) {
    put(packet, 10, &be16(checksum as usize));
}

/// An IPv6 packet: a header and a payload. Bytes may follow it.
#[derive(Debug, Clone, Copy, PartialEq, Eq)]
pub struct Ipv6Packet<'a> {
    /// The bytes at whose beginning the packet stands.
    pub buffer: &'a [u8],
}

impl<'a> Ipv6Packet<'a> {
    /// The packet at the beginning of `buffer`.
    ///
    /// # Errors
    /// An error unless the header of 40 bytes and the payload length fit into `buffer`. The version is not looked at.
    pub fn new_checked(buffer: &'a [u8]) -> Result<Ipv6Packet<'a>, Error> {
        if buffer.len() < 40 || buffer.len() < 40 + be16_at(buffer, 4) {
            return Err(Error);
        }
        Ok(Ipv6Packet { buffer })
    }

    /// The next header: the protocol of the payload, or an extension header.
    pub fn next_header(&self) -> IpProtocol {
        IpProtocol::from(self.buffer[6])
    }

    /// The bytes behind the header, as many as the payload length says.
    pub fn payload(&self) -> &'a [u8] {
        &self.buffer[40..40 + be16_at(self.buffer, 4)]
    }
}

impl Ipv4Repr {
    /// The header of a packet, without its options.
    ///
    /// # Errors
    /// An error for another version than 4, and where received checksums are tested for one that does not verify. Not
    /// looked at are the options, the hop limit, the addresses, and the flags and the offset: also the header of a
    /// fragment is read, whose payload is a piece of another packet's.
    #[inline(always)]
    pub fn parse(packet: &Ipv4Packet<'_>, caps: &ChecksumCapabilities) -> Result<Ipv4Repr, Error> {
        let bytes = packet.buffer;
        // before the sum, as the lengths were just read for the packet's own check
        let payload_len = be16_at(bytes, 2) - packet.header_len();
        if bytes[0] / 16 != 4 || (caps.ipv4.rx() && !verifies(packet)) {
            return Err(Error);
        }
        Ok(Ipv4Repr::of_fields(bytes, payload_len))
    }

    /// The addresses, the protocol and the hop limit that stand in an IPv4 header, with this payload length.
    pub fn of_fields(bytes: &[u8], payload_len: usize) -> Ipv4Repr {
        Ipv4Repr {
            src_addr: crate::kit::ipv4(four_at(bytes, 12)),
            dst_addr: crate::kit::ipv4(four_at(bytes, 16)),
            next_header: IpProtocol::from(bytes[9]),
            payload_len,
            hop_limit: bytes[8],
        }
    }
}

fn verifies(packet: &Ipv4Packet<'_>) -> bool {
    let header = &packet.buffer[..packet.header_len()];
    if header.len() == 20 {
        return sum_of_twenty(header) == 0xffff;
    }
    sum_after(0, header) == 0xffff
}

impl Ipv6Repr {
    /// The header of a packet.
    ///
    /// # Errors
    /// An error for another version than 6.
    pub fn parse(packet: &Ipv6Packet<'_>) -> Result<Ipv6Repr, Error> {
        let bytes = packet.buffer;
        if bytes[0] / 16 != 6 {
            return Err(Error);
        }
        Ok(Ipv6Repr::of_fields(bytes, be16_at(bytes, 4)))
    }

    /// The addresses, the protocol and the hop limit that stand in an IPv6 header, with this payload length.
    pub fn of_fields(bytes: &[u8], payload_len: usize) -> Ipv6Repr {
        Ipv6Repr {
            src_addr: crate::kit::ipv6(sixteen_at(bytes, 8)),
            dst_addr: crate::kit::ipv6(sixteen_at(bytes, 24)),
            next_header: IpProtocol::from(bytes[6]),
            payload_len,
            hop_limit: bytes[7],
        }
    }
}

fn four_at(bytes: &[u8], at: usize) -> [u8; 4] {
    let mut octets = [0; 4];
    octets.copy_from_slice(&bytes[at..at + 4]);
    octets
}

fn sixteen_at(bytes: &[u8], at: usize) -> [u8; 16] {
    let mut octets = [0; 16];
    octets.copy_from_slice(&bytes[at..at + 16]);
    octets
}

impl IpRepr {
    /// Writes the header into the first `header_len` bytes of `buffer`; the others stay.
    ///
    /// Lengths are written modulo 2^16. An IPv4 header has no options, may not be fragmented, and its checksum is 0
    /// where it is not computed before sending.
    pub fn emit(&self, buffer: &mut [u8], caps: &ChecksumCapabilities) {
        match self {
            IpRepr::Ipv4(repr) => emit_ipv4(repr, buffer, caps.ipv4.tx()),
            IpRepr::Ipv6(repr) => emit_ipv6(repr, buffer),
        }
    }
}

// Writes the checksum of the first `header` bytes as they are.
fn checksum_header(packet: &mut [u8], header: usize) {
    let checksum = checksum_after(0, &packet[..header]);
    write_checksum(packet, checksum);
}
