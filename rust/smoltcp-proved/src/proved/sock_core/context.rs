// Made from crates/sock_core/src/context.rt by rust/translate: change it there.
//! What a socket asks of the interface that holds it, and when it wants to be served next.

use crate::proved::ip_wire::{ChecksumCapabilities, IpAddress, Ipv4Address, Ipv6Address};
use crate::proved::net_base::time::Instant;

/// The interface as a socket sees it during one call.
///
/// Of these calls only `rand_u32` changes the context, and it changes only the words to come.
pub trait Context {
    /// The moment of the call, within 2^61 microseconds of zero.
    fn now(&self) -> Instant;

    /// Whether the interface has this address.
    fn has_ip_addr(&self, addr: IpAddress) -> bool;

    /// The address from which a packet to `dst` is sent, of the version of `dst`; none where there is none.
    fn get_source_address(&self, dst: &IpAddress) -> Option<IpAddress>;

    /// The IPv4 address from which a packet to `dst` is sent; none where there is none.
    fn get_source_address_ipv4(&self, dst: &Ipv4Address) -> Option<Ipv4Address>;

    /// The IPv6 address from which a packet to `dst` is sent; there always is one.
    fn get_source_address_ipv6(&self, dst: &Ipv6Address) -> Ipv6Address;

    /// Whether a packet to this address goes to every host of a network.
    fn is_broadcast(&self, addr: &IpAddress) -> bool;

    /// The largest IP packet, in octets: from 68 to 65535. Over IPv6 less than 576 counts as that: its links carry 1280
    /// (RFC 8200, section 5).
    fn ip_mtu(&self) -> usize;

    /// Which checksums are computed and tested here, and which by the device.
    fn checksum_caps(&self) -> ChecksumCapabilities;

    /// The next random word.
    fn rand_u32(&mut self) -> u32;
}

/// When a socket wants its next `dispatch`: at once, at a moment, or after the next packet that comes in.
///
/// Ordered so: `Now`, then `Time` by its moment, then `Ingress`.
#[derive(Debug, Clone, Copy, PartialEq, Eq, PartialOrd, Ord)]
pub enum PollAt {
    /// At once.
    Now,
    /// At the moment.
    Time(Instant),
    /// After the next packet that comes in, and not before.
    Ingress,
}

/// Poll moments stand in one total order: `Now`, then `Time` by its moment, then `Ingress`. Only equal ones are ordered
/// as equal.
pub fn poll_moments_are_ordered() {}
