// Made from crates/sock_dgram/src/udp/process.rt by rust/translate: change it there.
//! Datagrams that come in.

use crate::proved::control_wire::UdpRepr;
use crate::proved::ip_wire::{IpAddress, IpEndpoint, IpRepr};
use crate::proved::sock_core::Context;
use crate::proved::sock_dgram::queue::store;
use crate::proved::sock_dgram::udp::socket::{Socket, UdpMetadata};

// Whether a datagram to `dst` is for a socket that is bound to this address, or to none.
fn is_addressed<C: Context>(cx: &C, bound: Option<IpAddress>, dst: IpAddress) -> bool {
    match bound {
        None => true,
        Some(bound) => bound == dst || cx.is_broadcast(&dst) || dst.is_multicast(),
    }
}

impl<'a> Socket<'a> {
    /// Whether a datagram is for this socket: its port is the bound one, and the bound address is absent or the
    /// datagram's destination, or the destination is a broadcast or multicast address.
    pub fn accepts<C: Context>(&self, cx: &C, ip_repr: &IpRepr, repr: &UdpRepr) -> bool {
        self.endpoint.port == repr.dst_port && is_addressed(cx, self.endpoint.addr, ip_repr.dst_addr())
    }

    /// Puts a datagram that `accepts` holds of into the receive queue, with the endpoint it came from and the address
    /// it went to. Where the receive buffer has no room for it, it is dropped.
    /// That `accepts` holds of it is not required.
    pub fn process<C: Context>(&mut self, _cx: &C, ip_repr: &IpRepr, repr: &UdpRepr, payload: &[u8]) {
        let _ = self.queue_datagram(ip_repr, repr, payload);
    }

    /// Does what `process` does, and returns whether there was room for the datagram.
    pub fn queue_datagram(&mut self, ip_repr: &IpRepr, repr: &UdpRepr, payload: &[u8]) -> bool {
        let meta = UdpMetadata {
            endpoint: IpEndpoint { addr: ip_repr.src_addr(), port: repr.src_port },
            local_address: Some(ip_repr.dst_addr()),
        };
        store(&mut self.rx_buffer, meta, payload)
    }
}
