// Made from crates/pair_core/src/moment.rt by rust/translate: change it there.
//! The context of one call.

use crate::proved::ip_wire::{ChecksumCapabilities, IpAddress, Ipv4Address, Ipv6Address};
use crate::proved::net_base::time::Instant;
use crate::proved::sock_core::Context;

/// The context of one call: its moment, the random word, whether the address is there, and the largest IP packet.
#[derive(Debug, Clone, Copy, PartialEq, Eq)]
pub struct Moment {
    /// The time, within 2^61 microseconds of zero.
    pub now: Instant,
    /// What a random word is, however often one is drawn.
    pub word: u32,
    /// Whether the interface has the socket's local address.
    pub has_address: bool,
    /// The length of the largest IP packet in bytes, from 576 to 65535.
    pub ip_mtu: usize,
}

impl Moment {
    /// The context of a call at `now`, which is within 2^61 microseconds of zero; `ip_mtu` is from 576 to 65535 bytes.
    pub fn new(now: Instant, word: u32, has_address: bool, ip_mtu: usize) -> Moment {
        Moment { now, word, has_address, ip_mtu }
    }
}

// A moment has no source address, and no address is a broadcast one: no call of a pair asks for them.
impl Context for Moment {
    fn now(&self) -> Instant {
        self.now
    }

    fn has_ip_addr(&self, _addr: IpAddress) -> bool {
        self.has_address
    }

    fn get_source_address(&self, _dst: &IpAddress) -> Option<IpAddress> {
        None
    }

    fn get_source_address_ipv4(&self, _dst: &Ipv4Address) -> Option<Ipv4Address> {
        None
    }

    fn get_source_address_ipv6(&self, _dst: &Ipv6Address) -> Ipv6Address {
        crate::kit::ipv6([0; 16])
    }

    fn is_broadcast(&self, _addr: &IpAddress) -> bool {
        false
    }

    fn ip_mtu(&self) -> usize {
        self.ip_mtu
    }

    fn checksum_caps(&self) -> ChecksumCapabilities {
        ChecksumCapabilities::default()
    }

    fn rand_u32(&mut self) -> u32 {
        self.word
    }
}
