//! Addresses with the length of their prefix, as smoltcp's (RFC 4632, RFC 4291).
use crate::proved::ip_wire::{Error, IpAddress, Ipv4Address, Ipv6Address};
use crate::proved::net_host;
use core::fmt;
use core::str::FromStr;

/// The bits of an address that are the same in all of its subnet: the upper `len` of 32.
const fn mask4(len: u8) -> u32 {
    if len == 0 { 0 } else { u32::MAX << (32 - len) }
}

/// The bits of an address that are the same in all of its subnet: the upper `len` of 128.
const fn mask6(len: u8) -> u128 {
    if len == 0 { 0 } else { u128::MAX << (128 - len) }
}

/// An IPv4 address and the length of its prefix.
#[derive(Debug, PartialEq, Eq, PartialOrd, Ord, Hash, Clone, Copy)]
pub struct Ipv4Cidr {
    address: Ipv4Address,
    prefix_len: u8,
}

impl Ipv4Cidr {
    /// The address with a prefix of so many bits.
    ///
    /// # Panics
    /// Where that is more than 32.
    pub const fn new(address: Ipv4Address, prefix_len: u8) -> Ipv4Cidr {
        assert!(prefix_len <= 32, "an IPv4 prefix has at most 32 bits");
        Ipv4Cidr { address, prefix_len }
    }

    /// The address with the prefix of this mask.
    ///
    /// # Errors
    /// Where its ones do not stand before its zeros.
    pub fn from_netmask(address: Ipv4Address, netmask: Ipv4Address) -> Result<Ipv4Cidr, Error> {
        let prefix_len = netmask.to_bits().leading_ones() as u8;
        let fits = mask4(prefix_len) == netmask.to_bits();
        if fits { Ok(Ipv4Cidr { address, prefix_len }) } else { Err(Error) }
    }

    /// The address.
    pub const fn address(&self) -> Ipv4Address {
        self.address
    }

    /// How many bits the prefix has.
    pub const fn prefix_len(&self) -> u8 {
        self.prefix_len
    }

    /// Ones for the prefix, and zeros behind it.
    pub const fn netmask(&self) -> Ipv4Address {
        Ipv4Address::from_bits(mask4(self.prefix_len))
    }

    /// The last address of the subnet, to which all of its hosts listen; none where the prefix has 31 or 32 bits (RFC
    /// 3021).
    pub const fn broadcast(&self) -> Option<Ipv4Address> {
        match self.prefix_len {
            31 | 32 => None,
            len => Some(Ipv4Address::from_bits(self.address.to_bits() | !mask4(len))),
        }
    }

    /// The subnet: the prefix with zeros behind it.
    pub const fn network(&self) -> Ipv4Cidr {
        let address = Ipv4Address::from_bits(self.address.to_bits() & mask4(self.prefix_len));
        Ipv4Cidr { address, prefix_len: self.prefix_len }
    }

    /// Whether the address lies in the subnet.
    pub const fn contains_addr(&self, addr: &Ipv4Address) -> bool {
        (self.address.to_bits() ^ addr.to_bits()) & mask4(self.prefix_len) == 0
    }

    /// Whether all of the other subnet does.
    pub const fn contains_subnet(&self, subnet: &Ipv4Cidr) -> bool {
        self.prefix_len <= subnet.prefix_len && self.contains_addr(&subnet.address)
    }
}

impl From<Ipv4Address> for Ipv4Cidr {
    fn from(address: Ipv4Address) -> Ipv4Cidr {
        Ipv4Cidr::new(address, 32)
    }
}

/// An IPv6 address and the length of its prefix.
#[derive(Debug, PartialEq, Eq, PartialOrd, Ord, Hash, Clone, Copy)]
pub struct Ipv6Cidr {
    address: Ipv6Address,
    prefix_len: u8,
}

impl Ipv6Cidr {
    /// The address with a prefix of so many bits.
    ///
    /// # Panics
    /// Where that is more than 128.
    pub const fn new(address: Ipv6Address, prefix_len: u8) -> Ipv6Cidr {
        assert!(prefix_len <= 128, "an IPv6 prefix has at most 128 bits");
        Ipv6Cidr { address, prefix_len }
    }

    /// The address.
    pub const fn address(&self) -> Ipv6Address {
        self.address
    }

    /// How many bits the prefix has.
    pub const fn prefix_len(&self) -> u8 {
        self.prefix_len
    }

    /// Whether the address lies in the subnet.
    pub const fn contains_addr(&self, addr: &Ipv6Address) -> bool {
        (self.address.to_bits() ^ addr.to_bits()) & mask6(self.prefix_len) == 0
    }

    /// Whether all of the other subnet does.
    pub const fn contains_subnet(&self, subnet: &Ipv6Cidr) -> bool {
        self.prefix_len <= subnet.prefix_len && self.contains_addr(&subnet.address)
    }
}

/// An address of either version and the length of its prefix.
#[derive(Debug, PartialEq, Eq, PartialOrd, Ord, Hash, Clone, Copy)]
pub enum IpCidr {
    /// Of IPv4.
    Ipv4(Ipv4Cidr),
    /// Of IPv6.
    Ipv6(Ipv6Cidr),
}

impl IpCidr {
    /// The address with a prefix of so many bits.
    ///
    /// # Panics
    /// Where its version has no prefix so long.
    pub const fn new(addr: IpAddress, prefix_len: u8) -> IpCidr {
        match addr {
            IpAddress::Ipv4(addr) => IpCidr::Ipv4(Ipv4Cidr::new(addr, prefix_len)),
            IpAddress::Ipv6(addr) => IpCidr::Ipv6(Ipv6Cidr::new(addr, prefix_len)),
        }
    }

    /// The address.
    pub const fn address(&self) -> IpAddress {
        match self {
            IpCidr::Ipv4(cidr) => IpAddress::Ipv4(cidr.address),
            IpCidr::Ipv6(cidr) => IpAddress::Ipv6(cidr.address),
        }
    }

    /// How many bits the prefix has.
    pub const fn prefix_len(&self) -> u8 {
        match self {
            IpCidr::Ipv4(cidr) => cidr.prefix_len,
            IpCidr::Ipv6(cidr) => cidr.prefix_len,
        }
    }

    /// Whether the address lies in the subnet; one of the other version does not.
    pub const fn contains_addr(&self, addr: &IpAddress) -> bool {
        match (self, addr) {
            (IpCidr::Ipv4(cidr), IpAddress::Ipv4(addr)) => cidr.contains_addr(addr),
            (IpCidr::Ipv6(cidr), IpAddress::Ipv6(addr)) => cidr.contains_addr(addr),
            _ => false,
        }
    }

    /// Whether all of the other subnet does.
    pub const fn contains_subnet(&self, subnet: &IpCidr) -> bool {
        match (self, subnet) {
            (IpCidr::Ipv4(cidr), IpCidr::Ipv4(other)) => cidr.contains_subnet(other),
            (IpCidr::Ipv6(cidr), IpCidr::Ipv6(other)) => cidr.contains_subnet(other),
            _ => false,
        }
    }
}

impl From<net_host::IpCidr> for IpCidr {
    fn from(cidr: net_host::IpCidr) -> IpCidr {
        IpCidr::new(cidr.address, cidr.prefix_len)
    }
}

impl From<IpCidr> for net_host::IpCidr {
    fn from(cidr: IpCidr) -> net_host::IpCidr {
        net_host::IpCidr { address: cidr.address(), prefix_len: cidr.prefix_len() }
    }
}

impl From<Ipv4Cidr> for IpCidr {
    fn from(cidr: Ipv4Cidr) -> IpCidr {
        IpCidr::Ipv4(cidr)
    }
}

impl From<Ipv6Cidr> for IpCidr {
    fn from(cidr: Ipv6Cidr) -> IpCidr {
        IpCidr::Ipv6(cidr)
    }
}

impl fmt::Display for Ipv4Cidr {
    fn fmt(&self, f: &mut fmt::Formatter<'_>) -> fmt::Result {
        write!(f, "{}/{}", self.address, self.prefix_len)
    }
}

impl fmt::Display for Ipv6Cidr {
    fn fmt(&self, f: &mut fmt::Formatter<'_>) -> fmt::Result {
        write!(f, "{}/{}", self.address, self.prefix_len)
    }
}

impl fmt::Display for IpCidr {
    fn fmt(&self, f: &mut fmt::Formatter<'_>) -> fmt::Result {
        match self {
            IpCidr::Ipv4(cidr) => cidr.fmt(f),
            IpCidr::Ipv6(cidr) => cidr.fmt(f),
        }
    }
}

/// An address, a slash and a length, as `10.0.0.1/8`; the error is the unit, as smoltcp's.
impl FromStr for IpCidr {
    type Err = ();

    fn from_str(text: &str) -> Result<IpCidr, ()> {
        let (addr, len) = text.split_once('/').ok_or(())?;
        let (addr, len): (IpAddress, u8) = (addr.parse()?, len.parse().map_err(|_| ())?);
        let longest = match addr {
            IpAddress::Ipv4(_) => 32,
            IpAddress::Ipv6(_) => 128,
        };
        if len > longest { Err(()) } else { Ok(IpCidr::new(addr, len)) }
    }
}

/// An IPv4 address, a slash and a length of at most 32; the error is the unit, as smoltcp's.
impl FromStr for Ipv4Cidr {
    type Err = ();

    fn from_str(text: &str) -> Result<Ipv4Cidr, ()> {
        match text.parse()? {
            IpCidr::Ipv4(cidr) => Ok(cidr),
            IpCidr::Ipv6(_) => Err(()),
        }
    }
}

/// An IPv6 address, a slash and a length of at most 128; the error is the unit, as smoltcp's.
impl FromStr for Ipv6Cidr {
    type Err = ();

    fn from_str(text: &str) -> Result<Ipv6Cidr, ()> {
        match text.parse()? {
            IpCidr::Ipv4(_) => Err(()),
            IpCidr::Ipv6(cidr) => Ok(cidr),
        }
    }
}

#[cfg(all(test, feature = "std"))]
mod tests {
    use super::*;

    #[test]
    fn prefixes_are_compared_read_and_written() {
        let net: Ipv4Cidr = "10.1.2.3/16".parse().expect("a prefix");
        assert_eq!(net.network().address(), Ipv4Address::new(10, 1, 0, 0));
        assert_eq!(net.netmask(), Ipv4Address::new(255, 255, 0, 0));
        assert_eq!(net.broadcast(), Some(Ipv4Address::new(10, 1, 255, 255)));
        assert_eq!(Ipv4Cidr::new(net.address(), 31).broadcast(), None);
        assert!(
            net.contains_addr(&Ipv4Address::new(10, 1, 9, 9))
                && !net.contains_addr(&Ipv4Address::new(10, 2, 0, 0))
        );
        assert!(net.contains_subnet(&Ipv4Cidr::new(Ipv4Address::new(10, 1, 9, 0), 24)));
        let mask = |octet| Ipv4Cidr::from_netmask(net.address(), Ipv4Address::new(255, octet, 0, 0));
        assert_eq!((mask(255), mask(1)), (Ok(net), Err(Error)));
        assert_eq!(std::format!("{}", IpCidr::from(net)), "10.1.2.3/16");
        for wrong in ["10.0.0.1/33", "10.0.0.1", "fd00::/129", "/8"] {
            assert_eq!(wrong.parse::<IpCidr>(), Err(()));
        }
        assert_eq!("fd00::/64".parse::<Ipv6Cidr>().map(|cidr| cidr.prefix_len()), Ok(64));
    }
}
