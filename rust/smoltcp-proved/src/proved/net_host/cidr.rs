// Made from crates/net_host/src/cidr.rt by rust/translate: change it there.
//! An address of an interface, with the length of its prefix.

use crate::sockets::wire::{IpAddress, Ipv4Address, Ipv6Address};

/// An address, and how many of its first bits are those of its network: at most 32 of IPv4, and 128 of IPv6; more count
/// as so many.
#[derive(Debug, Clone, Copy, PartialEq, Eq)]
pub struct IpCidr {
    /// The address.
    pub address: IpAddress,
    /// The length of the prefix, in bits.
    pub prefix_len: u8,
}

impl IpCidr {
    /// Whether the address lies in the network.
    pub fn contains(&self, address: &IpAddress) -> bool {
        match (&self.address, address) {
            (IpAddress::Ipv4(own), IpAddress::Ipv4(other)) => agree_v4(self.prefix_len, own, other),
            (IpAddress::Ipv6(own), IpAddress::Ipv6(other)) => agree_v6(self.prefix_len, own, other),
            _ => false,
        }
    }

    /// Whether the address is the broadcast of the network (RFC 919): only ones behind the prefix, or only zeros, which
    /// no host has either (RFC 1122, section 3.3.6). A prefix of 31 or 32 bits has none (RFC 3021), and IPv6 has none.
    pub fn is_broadcast(&self, address: &IpAddress) -> bool {
        match (&self.address, address) {
            (IpAddress::Ipv4(own), IpAddress::Ipv4(other)) => {
                self.prefix_len <= 30
                    && agree_v4(self.prefix_len, own, other)
                    && is_edge(self.prefix_len, other)
            }
            _ => false,
        }
    }
}

/// Whether the address is 255.255.255.255, every host on the link (RFC 919).
pub fn is_limited_broadcast(address: &IpAddress) -> bool {
    match address {
        IpAddress::Ipv4(address) => u32::from_be_bytes(address.octets()) == u32::MAX,
        IpAddress::Ipv6(_) => false,
    }
}

fn agree_v4(prefix_len: u8, a: &Ipv4Address, b: &Ipv4Address) -> bool {
    let size = 1u64 << 32u8.saturating_sub(prefix_len);
    u64::from(u32::from_be_bytes(a.octets())) / size == u64::from(u32::from_be_bytes(b.octets())) / size
}

fn is_edge(prefix_len: u8, a: &Ipv4Address) -> bool {
    let size = 1u64 << 32u8.saturating_sub(prefix_len);
    let rest = u64::from(u32::from_be_bytes(a.octets())) % size;
    rest == 0 || rest == size - 1
}

// Not inlined, so that what a packet of IPv4 runs through stays short.
#[inline(never)]
fn agree_v6(prefix_len: u8, a: &Ipv6Address, b: &Ipv6Address) -> bool {
    agree_wide(prefix_len, number_v6(a), number_v6(b))
}

fn number_v6(a: &Ipv6Address) -> u128 {
    u128::from_be_bytes(a.octets())
}

fn agree_wide(prefix_len: u8, a: u128, b: u128) -> bool {
    if prefix_len == 0 {
        return true;
    }
    let size = 1u128 << 128u8.saturating_sub(prefix_len);
    a / size == b / size
}
