// Made from crates/ip_wire/src/protocol.rt by rust/translate: change it there.
//! Versions of IP, and the protocols above it.

use crate::proved::ip_wire::malformed::Error;

/// A version of IP.
#[derive(Debug, Clone, Copy, PartialEq, Eq)]
pub enum IpVersion {
    Ipv4,
    Ipv6,
}

impl IpVersion {
    /// The version of a packet, by the high half of its first octet (RFC 791, section 3.1).
    ///
    /// # Errors
    /// An error where that is neither 4 nor 6, and for an empty packet.
    pub fn of_packet(packet: &[u8]) -> Result<IpVersion, Error> {
        match packet.first() {
            Some(first) if *first / 16 == 4 => Ok(IpVersion::Ipv4),
            Some(first) if *first / 16 == 6 => Ok(IpVersion::Ipv6),
            _ => Err(Error),
        }
    }
}

/// The protocol of an IP payload (the IANA protocol numbers 1, 6, 17 and 58, or another).
/// `Unknown(6)` has the same number as `Tcp`, and is read back as `Tcp`; the same holds of the other three.
#[derive(Debug, Clone, Copy, PartialEq, Eq)]
pub enum IpProtocol {
    Icmp,
    Tcp,
    Udp,
    Icmpv6,
    Unknown(u8),
}

impl From<u8> for IpProtocol {
    fn from(number: u8) -> IpProtocol {
        match number {
            1 => IpProtocol::Icmp,
            6 => IpProtocol::Tcp,
            17 => IpProtocol::Udp,
            58 => IpProtocol::Icmpv6,
            other => IpProtocol::Unknown(other),
        }
    }
}

impl From<IpProtocol> for u8 {
    fn from(protocol: IpProtocol) -> u8 {
        match protocol {
            IpProtocol::Icmp => 1,
            IpProtocol::Tcp => 6,
            IpProtocol::Udp => 17,
            IpProtocol::Icmpv6 => 58,
            IpProtocol::Unknown(number) => number,
        }
    }
}
