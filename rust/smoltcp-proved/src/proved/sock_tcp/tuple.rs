// Made from crates/sock_tcp/src/tuple.rt by rust/translate: change it there.
//! Both ends of a connection.

use crate::proved::control_wire::TcpRepr;
use crate::proved::ip_wire::{IpAddress, IpEndpoint, IpRepr};

/// Both ends of a connection.
#[derive(Debug, Clone, Copy, PartialEq, Eq)]
pub struct Tuple {
    /// This end.
    pub local: IpEndpoint,
    /// The peer's end.
    pub remote: IpEndpoint,
}

impl Tuple {
    // The tuple of the side that a segment goes to.
    pub(crate) fn of_segment(ip_repr: &IpRepr, repr: &TcpRepr<'_>) -> Tuple {
        Tuple {
            local: IpEndpoint { addr: ip_repr.dst_addr(), port: repr.dst_port },
            remote: IpEndpoint { addr: ip_repr.src_addr(), port: repr.src_port },
        }
    }

    fn is_of_header(&self, ip_repr: &IpRepr) -> bool {
        match (ip_repr, &self.local.addr, &self.remote.addr) {
            (IpRepr::Ipv4(header), IpAddress::Ipv4(local), IpAddress::Ipv4(remote)) => {
                header.dst_addr == *local && header.src_addr == *remote
            }
            (IpRepr::Ipv6(header), IpAddress::Ipv6(local), IpAddress::Ipv6(remote)) => {
                header.dst_addr == *local && header.src_addr == *remote
            }
            _ => false,
        }
    }

    pub(crate) fn is_of_segment(&self, ip_repr: &IpRepr, repr: &TcpRepr<'_>) -> bool {
        // ports first: they tell most connections of a host apart, and are compared in one step each
        repr.src_port == self.remote.port && repr.dst_port == self.local.port && self.is_of_header(ip_repr)
    }
}
