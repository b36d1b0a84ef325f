// Made from crates/net_host/src/ports.rt by rust/translate: change it there.
//! Connections and ports that sockets of a set have, and a port that none has.

use crate::proved::net_host::slot::Slot;
use crate::sockets::sock_tcp::TsvalSource;
use crate::sockets::wire::{IpAddress, IpEndpoint};
use crate::sockets::{Socket, tcp};

// How many ports there are for programs that ask for none (RFC 6335, section 6).
const PORTS: u32 = 16384;

const FIRST_PORT: u32 = 49152;

// Whether the socket has the connection between these two.
fn is_between<G: TsvalSource>(tcp: &tcp::Socket<'_, G>, local: &IpEndpoint, remote: &IpEndpoint) -> bool {
    match (tcp.local_endpoint(), tcp.remote_endpoint()) {
        (Some(here), Some(there)) => here == *local && there == *remote,
        _ => false,
    }
}

impl<'a, G: TsvalSource> Slot<'a, G> {
    fn connects(&self, local: &IpEndpoint, remote: &IpEndpoint) -> bool {
        match &self.socket {
            Some(Socket::Tcp(tcp)) => is_between(tcp, local, remote),
            _ => false,
        }
    }

    fn binds(&self, port: u16) -> bool {
        match &self.socket {
            Some(Socket::Udp(udp)) => udp.endpoint().port == port,
            _ => false,
        }
    }
}

/// The first socket with the connection between these two.
pub(crate) fn connection<G: TsvalSource>(
    slots: &[Slot<'_, G>],
    local: &IpEndpoint,
    remote: &IpEndpoint,
) -> Option<usize> {
    for (i, slot) in slots.iter().enumerate() {
        if slot.connects(local, remote) {
            return Some(i);
        }
    }
    None
}

/// The first UDP socket that is bound to this port.
pub(crate) fn binding<G: TsvalSource>(slots: &[Slot<'_, G>], port: u16) -> Option<usize> {
    for (i, slot) in slots.iter().enumerate() {
        if slot.binds(port) {
            return Some(i);
        }
    }
    None
}

fn port_after(start: u16, k: u32) -> u16 {
    (FIRST_PORT + (start as u32 + k) % PORTS) as u16
}

/// A port from which no connection to this endpoint begins: the first from one on.
pub(crate) fn free_port<G: TsvalSource>(
    slots: &[Slot<'_, G>],
    addr: IpAddress,
    remote: &IpEndpoint,
    start: u16,
) -> Option<u16> {
    for k in 0..PORTS {
        let port = port_after(start, k);
        if connection(slots, &IpEndpoint { addr, port }, remote).is_none() {
            return Some(port);
        }
    }
    None
}

/// A port to which no UDP socket is bound: the first from one on.
pub(crate) fn free_binding<G: TsvalSource>(slots: &[Slot<'_, G>], start: u16) -> Option<u16> {
    for k in 0..PORTS {
        let port = port_after(start, k);
        if binding(slots, port).is_none() {
            return Some(port);
        }
    }
    None
}
