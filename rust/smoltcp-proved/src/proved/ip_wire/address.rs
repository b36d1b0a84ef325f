// Made from crates/ip_wire/src/address.rt by rust/translate: change it there.
//! Addresses of the two versions of IP.

use crate::proved::ip_wire::protocol::IpVersion;
pub use core::net::{Ipv4Addr as Ipv4Address, Ipv6Addr as Ipv6Address};

/// An address of either version.
#[derive(Debug, Clone, Copy, PartialEq, Eq, PartialOrd, Ord)]
pub enum IpAddress {
    Ipv4(Ipv4Address),
    Ipv6(Ipv6Address),
}

fn all_zero(octets: &[u8]) -> bool {
    octets.iter().all(|octet| *octet == 0)
}

impl IpAddress {
    /// The IPv4 address a.b.c.d.
    pub const fn v4(a: u8, b: u8, c: u8, d: u8) -> IpAddress {
        IpAddress::Ipv4(Ipv4Address::new(a, b, c, d))
    }

    /// The version of IP that the address belongs to.
    pub fn version(&self) -> IpVersion {
        match self {
            IpAddress::Ipv4(_) => IpVersion::Ipv4,
            IpAddress::Ipv6(_) => IpVersion::Ipv6,
        }
    }

    /// Whether all octets are zero.
    pub fn is_unspecified(&self) -> bool {
        match self {
            IpAddress::Ipv4(address) => address.is_unspecified(),
            IpAddress::Ipv6(address) => address.is_unspecified(),
        }
    }

    /// Whether the address stands for a group of hosts.
    pub fn is_multicast(&self) -> bool {
        match self {
            IpAddress::Ipv4(address) => address.is_multicast(),
            IpAddress::Ipv6(address) => address.is_multicast(),
        }
    }
}
