// Made from crates/ip_wire/src/endpoint.rt by rust/translate: change it there.
//! Addresses with ports.

use crate::proved::ip_wire::address::{IpAddress, Ipv4Address, Ipv6Address};
use core::fmt;
use core::fmt::Write as _;

/// An address and a port.
#[derive(Debug, Clone, Copy, PartialEq, Eq, PartialOrd, Ord)]
pub struct IpEndpoint {
    /// The address.
    pub addr: IpAddress,
    /// The port, or 0 for none.
    pub port: u16,
}

/// A port, and an address where only segments to that one are wanted.
#[derive(Debug, Clone, Copy, PartialEq, Eq, PartialOrd, Ord)]
pub struct IpListenEndpoint {
    /// The address, or None for any.
    pub addr: Option<IpAddress>,
    /// The port, or 0 for none.
    pub port: u16,
}

impl IpEndpoint {
    /// This port at this address.
    pub const fn new(addr: IpAddress, port: u16) -> IpEndpoint {
        IpEndpoint { addr, port }
    }
}

impl Default for IpListenEndpoint {
    /// No address, and port 0.
    fn default() -> IpListenEndpoint {
        IpListenEndpoint { addr: None, port: 0 }
    }
}

impl From<IpEndpoint> for IpListenEndpoint {
    fn from(endpoint: IpEndpoint) -> IpListenEndpoint {
        IpListenEndpoint { addr: Some(endpoint.addr), port: endpoint.port }
    }
}

/// `10.0.0.1:80`, and for IPv6 `[..]:80` with eight groups of four lower-case hexadecimal digits.
impl fmt::Display for IpEndpoint {
    fn fmt(&self, f: &mut fmt::Formatter<'_>) -> fmt::Result {
        address(f, &self.addr)?;
        let port = self.port;
        write!(f, ":{port}")
    }
}

fn address(f: &mut fmt::Formatter<'_>, addr: &IpAddress) -> fmt::Result {
    match addr {
        IpAddress::Ipv4(addr) => ipv4(f, addr),
        IpAddress::Ipv6(addr) => {
            f.write_str("[")?;
            ipv6(f, addr)?;
            f.write_str("]")
        }
    }
}

fn ipv4(f: &mut fmt::Formatter<'_>, addr: &Ipv4Address) -> fmt::Result {
    let [a, b, c, d] = addr.octets();
    write!(f, "{a}.{b}.{c}.{d}")
}

fn ipv6(f: &mut fmt::Formatter<'_>, addr: &Ipv6Address) -> fmt::Result {
    four_groups(f, &addr.octets(), 0)?;
    f.write_str(":")?;
    four_groups(f, &addr.octets(), 8)
}

// Four groups of two octets each.
fn four_groups(f: &mut fmt::Formatter<'_>, octets: &[u8], start: usize) -> fmt::Result {
    two_groups(f, octets, start)?;
    f.write_str(":")?;
    two_groups(f, octets, start + 4)
}

// Two of them, with a colon between.
fn two_groups(f: &mut fmt::Formatter<'_>, octets: &[u8], start: usize) -> fmt::Result {
    let first = Group(octets[start], octets[start + 1]);
    let second = Group(octets[start + 2], octets[start + 3]);
    write!(f, "{first}:{second}")
}

// Two octets, printed as four hexadecimal digits.
#[derive(Clone, Copy)]
struct Group(u8, u8);

impl fmt::Display for Group {
    fn fmt(&self, f: &mut fmt::Formatter<'_>) -> fmt::Result {
        digit(f, self.0 / 16)?;
        digit(f, self.0 % 16)?;
        digit(f, self.1 / 16)?;
        digit(f, self.1 % 16)
    }
}

// One hexadecimal digit.
fn digit(f: &mut fmt::Formatter<'_>, d: u8) -> fmt::Result {
    let code = if d < 10 { b'0' + d } else { b'a' + (d - 10) };
    f.write_char(char::from(code))
}
