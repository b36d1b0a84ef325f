// Made from crates/ip_wire/src/repr.rt by rust/translate: change it there.
//! The headers of IPv4 and IPv6 as values.

use crate::proved::ip_wire::address::{IpAddress, Ipv4Address, Ipv6Address};
use crate::proved::ip_wire::protocol::{IpProtocol, IpVersion};

/// An IPv4 header without options (RFC 791, section 3.1).
#[derive(Debug, Clone, Copy, PartialEq, Eq)]
pub struct Ipv4Repr {
    /// Where the packet comes from.
    pub src_addr: Ipv4Address,
    /// Where it goes.
    pub dst_addr: Ipv4Address,
    /// The protocol of the payload.
    pub next_header: IpProtocol,
    /// How many bytes the payload has.
    pub payload_len: usize,
    /// How many hops the packet may still take.
    pub hop_limit: u8,
}

/// An IPv6 header without extension headers (RFC 8200, section 3).
#[derive(Debug, Clone, Copy, PartialEq, Eq)]
pub struct Ipv6Repr {
    /// Where the packet comes from.
    pub src_addr: Ipv6Address,
    /// Where it goes.
    pub dst_addr: Ipv6Address,
    /// The protocol of the payload.
    pub next_header: IpProtocol,
    /// How many bytes the payload has.
    pub payload_len: usize,
    /// How many hops the packet may still take.
    pub hop_limit: u8,
}

/// The header of an IP packet of either version.
#[derive(Debug, Clone, Copy, PartialEq, Eq)]
pub enum IpRepr {
    Ipv4(Ipv4Repr),
    Ipv6(Ipv6Repr),
}

impl IpRepr {
    /// The header of a packet between two addresses of one version.
    pub fn new(
        src_addr: IpAddress,
        dst_addr: IpAddress,
        next_header: IpProtocol,
        payload_len: usize,
        hop_limit: u8,
    ) -> IpRepr {
        match (src_addr, dst_addr) {
            (IpAddress::Ipv4(src_addr), IpAddress::Ipv4(dst_addr)) => {
                IpRepr::Ipv4(Ipv4Repr { src_addr, dst_addr, next_header, payload_len, hop_limit })
            }
            (IpAddress::Ipv6(src_addr), IpAddress::Ipv6(dst_addr)) => {
                IpRepr::Ipv6(Ipv6Repr { src_addr, dst_addr, next_header, payload_len, hop_limit })
            }
            _ => unreachable!(),
        }
    }

    /// The version of IP.
    pub fn version(&self) -> IpVersion {
        match self {
            IpRepr::Ipv4(_) => IpVersion::Ipv4,
            IpRepr::Ipv6(_) => IpVersion::Ipv6,
        }
    }

    /// The address that the packet comes from.
    pub fn src_addr(&self) -> IpAddress {
        match self {
            IpRepr::Ipv4(repr) => IpAddress::Ipv4(repr.src_addr),
            IpRepr::Ipv6(repr) => IpAddress::Ipv6(repr.src_addr),
        }
    }

    /// The address that the packet goes to.
    pub fn dst_addr(&self) -> IpAddress {
        match self {
            IpRepr::Ipv4(repr) => IpAddress::Ipv4(repr.dst_addr),
            IpRepr::Ipv6(repr) => IpAddress::Ipv6(repr.dst_addr),
        }
    }

    /// The protocol of the payload.
    pub fn next_header(&self) -> IpProtocol {
        match self {
            IpRepr::Ipv4(repr) => repr.next_header,
            IpRepr::Ipv6(repr) => repr.next_header,
        }
    }

    /// How many bytes the payload has.
    pub fn payload_len(&self) -> usize {
        match self {
            IpRepr::Ipv4(repr) => repr.payload_len,
            IpRepr::Ipv6(repr) => repr.payload_len,
        }
    }

    /// Sets how many bytes the payload has.
    pub fn set_payload_len(&mut self, length: usize) {
        match self {
            IpRepr::Ipv4(repr) => repr.payload_len = length,
            IpRepr::Ipv6(repr) => repr.payload_len = length,
        }
    }

    /// How many routers the packet may still pass.
    pub fn hop_limit(&self) -> u8 {
        match self {
            IpRepr::Ipv4(repr) => repr.hop_limit,
            IpRepr::Ipv6(repr) => repr.hop_limit,
        }
    }

    /// How many bytes the header takes: 20 for IPv4, 40 for IPv6.
    pub fn header_len(&self) -> usize {
        match self {
            IpRepr::Ipv4(_) => 20,
            IpRepr::Ipv6(_) => 40,
        }
    }
}
