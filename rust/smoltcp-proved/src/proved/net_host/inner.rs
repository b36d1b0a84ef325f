// Made from crates/net_host/src/inner.rt by rust/translate: change it there.
//! The context of every call of a socket.

use crate::proved::host_context::Words;
use crate::proved::net_host::environment::Environment;
use crate::sockets::Context;
use crate::sockets::time::Instant;
use crate::sockets::wire::{ChecksumCapabilities, IpAddress, Ipv4Address, Ipv6Address};

/// What an interface answers its sockets, in their calls: it is their context. As smoltcp's.
pub struct InterfaceInner<W> {
    pub(crate) environment: Environment,
    pub(crate) words: W,
}

impl<W: Words> Context for InterfaceInner<W> {
    fn now(&self) -> Instant {
        self.environment.now
    }

    #[inline(always)]
    fn has_ip_addr(&self, addr: IpAddress) -> bool {
        self.environment.has_ip_addr(&addr)
    }

    fn get_source_address(&self, dst: &IpAddress) -> Option<IpAddress> {
        self.environment.source(dst)
    }

    fn get_source_address_ipv4(&self, dst: &Ipv4Address) -> Option<Ipv4Address> {
        source_v4(&self.environment, dst)
    }

    fn get_source_address_ipv6(&self, dst: &Ipv6Address) -> Ipv6Address {
        source_v6(&self.environment, dst)
    }

    fn is_broadcast(&self, addr: &IpAddress) -> bool {
        self.environment.is_broadcast(addr)
    }

    fn ip_mtu(&self) -> usize {
        self.environment.mtu
    }

    fn checksum_caps(&self) -> ChecksumCapabilities {
        self.environment.checksums
    }

    fn rand_u32(&mut self) -> u32 {
        self.words.next()
    }
}

/// The source of a packet to this address of IPv4.
pub(crate) fn source_v4(environment: &Environment, dst: &Ipv4Address) -> Option<Ipv4Address> {
    match environment.source(&IpAddress::Ipv4(*dst)) {
        Some(IpAddress::Ipv4(own)) => Some(own),
        _ => None,
    }
}

/// The source of a packet to this address of IPv6; zeros, which stand for no address, where there is none.
pub(crate) fn source_v6(environment: &Environment, dst: &Ipv6Address) -> Ipv6Address {
    match environment.source(&IpAddress::Ipv6(*dst)) {
        Some(IpAddress::Ipv6(own)) => own,
        _ => Ipv6Address::UNSPECIFIED,
    }
}
