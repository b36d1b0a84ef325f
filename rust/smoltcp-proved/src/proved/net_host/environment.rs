// Made from crates/net_host/src/environment.rt by rust/translate: change it there.
//! What an interface knows of its network.

use crate::kit::Vec;
use crate::proved::ip_wire::octets::be32_at;
use crate::proved::net_host::cidr::{IpCidr, is_limited_broadcast};
use crate::sockets::time::Instant;
use crate::sockets::wire::{ChecksumCapabilities, IpAddress};

/// The addresses of an interface, its MTU, the checksums that are computed here, and the moment.
pub struct Environment {
    pub(crate) addresses: Vec<IpCidr>,
    pub(crate) now: Instant,
    pub(crate) mtu: usize,
    pub(crate) checksums: ChecksumCapabilities,
}

impl Environment {
    pub(crate) fn new(addresses: Vec<IpCidr>) -> Environment {
        Environment { addresses, now: Instant::ZERO, mtu: 1500, checksums: ChecksumCapabilities::default() }
    }

    /// The moment.
    pub(crate) fn moment(&self) -> Instant {
        self.now
    }

    /// Sets the moment, within 2^60 microseconds of zero; one that is further away counts as the nearest of these.
    pub(crate) fn set_now(&mut self, now: Instant) {
        self.now = lawful(now);
    }

    pub(crate) fn set_mtu(&mut self, mtu: usize) {
        self.mtu = mtu.min(65535).max(68);
    }

    #[inline(always)]
    pub(crate) fn has_ip_addr(&self, addr: &IpAddress) -> bool {
        has_address(&self.addresses, addr)
    }

    pub(crate) fn source(&self, dst: &IpAddress) -> Option<IpAddress> {
        self.chosen(dst)
    }

    fn chosen(&self, dst: &IpAddress) -> Option<IpAddress> {
        match self.network_of(dst) {
            Some(own) => Some(own),
            None => self.first_of_version(dst),
        }
    }

    fn network_of(&self, dst: &IpAddress) -> Option<IpAddress> {
        let found = self.addresses.iter().find(|c: &&IpCidr| c.contains(dst))?;
        Some(found.address)
    }

    fn first_of_version(&self, dst: &IpAddress) -> Option<IpAddress> {
        let found = self.addresses.iter().find(|c: &&IpCidr| c.address.version() == dst.version())?;
        Some(found.address)
    }

    #[inline(always)]
    pub(crate) fn is_broadcast(&self, addr: &IpAddress) -> bool {
        is_limited_broadcast(addr) || self.is_directed_broadcast(addr)
    }

    #[inline(always)]
    fn is_directed_broadcast(&self, addr: &IpAddress) -> bool {
        has_directed(&self.addresses, addr)
    }
}

// A loop of its own takes the place of the library's `any`, which is called.
#[inline(always)]
fn has_address(addresses: &[IpCidr], addr: &IpAddress) -> bool {
    for i in 0..addresses.len() {
        if is_same_address(&addresses[i].address, addr) {
            return true;
        }
    }
    false
}

#[inline(always)]
fn has_directed(addresses: &[IpCidr], addr: &IpAddress) -> bool {
    for i in 0..addresses.len() {
        if addresses[i].is_broadcast(addr) {
            return true;
        }
    }
    false
}

// The same as `==`, without a call, as each packet has its addresses compared.
#[inline(always)]
fn is_same_address(a: &IpAddress, b: &IpAddress) -> bool {
    match (a, b) {
        (IpAddress::Ipv4(a), IpAddress::Ipv4(b)) => are_same_octets(&a.octets(), &b.octets()),
        (IpAddress::Ipv6(a), IpAddress::Ipv6(b)) => *a == *b,
        _ => false,
    }
}

// The same as `==`, as numbers: the compiler compares single bytes else.
#[inline(always)]
fn are_same_octets(a: &[u8; 4], b: &[u8; 4]) -> bool {
    let _numbers = (be32_at(a, 0), be32_at(b, 0)); // for their bytes' range
    u32::from_be_bytes(*a) == u32::from_be_bytes(*b)
}

// No moment is further from zero, in microseconds: some 36,000 years.
const FARTHEST: i64 = 1 << 60;

fn lawful(now: Instant) -> Instant {
    let micros = if now.micros < -FARTHEST {
        -FARTHEST
    } else if FARTHEST < now.micros {
        FARTHEST
    } else {
        now.micros
    };
    Instant { micros }
}
