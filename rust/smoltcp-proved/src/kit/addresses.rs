//! Addresses of their octets, in constants too: the sources have types of their own for them.
use core::net::{Ipv4Addr, Ipv6Addr};

/// The IPv4 address of these octets.
#[inline(always)]
pub const fn ipv4(octets: [u8; 4]) -> Ipv4Addr {
    Ipv4Addr::new(octets[0], octets[1], octets[2], octets[3])
}

/// The IPv6 address of these octets.
#[inline(always)]
pub const fn ipv6(octets: [u8; 16]) -> Ipv6Addr {
    Ipv6Addr::from_bits(u128::from_be_bytes(octets))
}
