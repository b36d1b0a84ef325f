// Made from crates/host_context/src/interface.rt by rust/translate: change it there.
//! The context of every call of a socket.

use crate::proved::host_context::words::Words;
use crate::proved::smoltcp_socket::Context;
use crate::proved::smoltcp_socket::time::Instant;
use crate::proved::smoltcp_socket::wire::{ChecksumCapabilities, IpAddress, Ipv4Address, Ipv6Address};

// No moment is later, in microseconds: some 36,000 years.
const LATEST: u64 = 1 << 60;

/// An interface with at most one address of each version of IP: the context of every call of a socket.
///
/// An unspecified address (all zeros) is none: nothing is sent from it, so that `connect` to that version of IP is
/// refused as `Unaddressable` and a datagram to it leaves the queue without a packet, and `has_ip_addr` denies it. The
/// one exception is an ICMPv6 message: a socket asks for its source by a call that always answers one.
///
/// Its IPv4 address cannot be set afterwards, and there is no second one: a host that changes its addresses has to say
/// what becomes of its sockets.
///
/// `W` is the source of random words. `O` is where packets that sockets emit are put, as `Outbox`: the closure of
/// `dispatch` is lent the interface, and reaches it there.
pub struct Interface<W, O> {
    v4: Ipv4Address,
    v6: Ipv6Address,
    micros: u64,
    mtu: usize,
    /// Which checksums are computed and tested here, and which by the device; at first all are computed here.
    pub checksums: ChecksumCapabilities,
    /// The source of random words.
    pub words: W,
    /// Where packets are put.
    pub outbox: O,
}

impl<W, O> Interface<W, O> {
    /// An interface with this address and the one of IPv6 that ends in it, behind fd00 and zeros. It is at moment 0,
    /// and its MTU is 1500 bytes.
    pub fn new(v4: Ipv4Address, words: W, outbox: O) -> Interface<W, O> {
        let [a, b, c, d] = v4.octets();
        Interface {
            v4,
            v6: crate::kit::ipv6([0xfd, 0, 0, 0, 0, 0, 0, 0, 0, 0, 0, 0, a, b, c, d]),
            micros: 0,
            mtu: 1500,
            checksums: ChecksumCapabilities::default(),
            words,
            outbox,
        }
    }

    /// Its IPv4 address; unspecified where it has none.
    pub fn ipv4_addr(&self) -> Ipv4Address {
        self.v4
    }

    /// Its IPv6 address; unspecified where it has none.
    pub fn ipv6_addr(&self) -> Ipv6Address {
        self.v6
    }

    /// Sets the IPv6 address; the unspecified one takes it away.
    pub fn set_ipv6_addr(&mut self, v6: Ipv6Address) {
        self.v6 = v6;
    }

    /// Sets the time, in microseconds since any moment that the program chooses; some 36,000 years at most.
    pub fn set_micros(&mut self, micros: u64) {
        self.micros = micros.min(LATEST);
    }

    /// Sets the time in milliseconds.
    pub fn set_millis(&mut self, millis: u32) {
        self.micros = millis as u64 * 1000;
    }

    /// The time in milliseconds; 2^32 - 1, some 49 days, where it is later.
    pub fn millis(&self) -> u32 {
        (self.micros / 1000).min(4_294_967_295) as u32
    }

    /// Sets the largest IP packet, in bytes: 68 to 65535, and the nearest of these for any other. Over IPv6 less than
    /// 576 counts as that (RFC 8200, section 5: its links carry 1280).
    pub fn set_mtu(&mut self, mtu: usize) {
        self.mtu = mtu.min(65535).max(68);
    }
}

impl<W: Words, O> Context for Interface<W, O> {
    fn now(&self) -> Instant {
        Instant { micros: self.micros as i64 }
    }

    fn has_ip_addr(&self, addr: IpAddress) -> bool {
        match addr {
            IpAddress::Ipv4(_) => !self.v4.is_unspecified() && addr == IpAddress::Ipv4(self.v4),
            IpAddress::Ipv6(_) => !self.v6.is_unspecified() && addr == IpAddress::Ipv6(self.v6),
        }
    }

    fn get_source_address(&self, dst: &IpAddress) -> Option<IpAddress> {
        match dst {
            IpAddress::Ipv4(_) if !self.v4.is_unspecified() => Some(IpAddress::Ipv4(self.v4)),
            IpAddress::Ipv6(_) if !self.v6.is_unspecified() => Some(IpAddress::Ipv6(self.v6)),
            _ => None,
        }
    }

    fn get_source_address_ipv4(&self, _dst: &Ipv4Address) -> Option<Ipv4Address> {
        if self.v4.is_unspecified() {
            return None;
        }
        Some(self.v4)
    }

    fn get_source_address_ipv6(&self, _dst: &Ipv6Address) -> Ipv6Address {
        self.v6
    }

    fn is_broadcast(&self, _addr: &IpAddress) -> bool {
        false
    }

    fn ip_mtu(&self) -> usize {
        self.mtu
    }

    fn checksum_caps(&self) -> ChecksumCapabilities {
        self.checksums
    }

    fn rand_u32(&mut self) -> u32 {
        self.words.next()
    }
}
