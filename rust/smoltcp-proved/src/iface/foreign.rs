//! Addresses that an interface answers for without having them (`Interface::set_any_ip`): each is taken on when a packet
//! to it comes, and stands behind the own ones, from where sockets know it.
use super::Interface;
use super::set::SocketSet;
use crate::kit::alloc::Global;
use crate::proved::ip_wire::IpAddress;
use crate::proved::net_base::Instant;
use crate::sockets::Socket;
use crate::wire::IpCidr;

/// How many at a time: those of connections stay, and of the others the oldest makes room.
pub(crate) const FOREIGN: usize = if cfg!(feature = "alloc") { 16 } else { 4 };

/// Where a packet goes to, by the bytes in which that stands.
pub(crate) fn destination(packet: &[u8]) -> Option<IpAddress> {
    match packet {
        [0x40..=0x4f, ..] => match packet.get(16..20)? {
            [a, b, c, d] => Some(IpAddress::v4(*a, *b, *c, *d)),
            _ => None,
        },
        [0x60..=0x6f, ..] => Some(crate::kit::ipv6(packet.get(24..40)?.try_into().ok()?).into()),
        _ => None,
    }
}

impl Interface {
    /// Takes the packet's destination on, where it is one of one host whose route leads through an own address.
    pub(super) fn take_on(&mut self, now: Instant, packet: &[u8], sockets: &SocketSet<'_>) {
        let Some(addr) = destination(packet) else { return };
        let environment = &self.host.inner.environment;
        let one_host = !addr.is_multicast() && !addr.is_unspecified() && !environment.is_broadcast(&addr);
        let router = self.routes.lookup(&addr, now);
        if !one_host || environment.has_ip_addr(&addr) || !router.is_some_and(|router| self.is_own(&router)) {
            return;
        }
        if self.foreign.is_full() {
            let unused = self.foreign.iter().position(|cidr| !is_used(sockets, &cidr.address()));
            let Some(place) = unused else { return };
            self.foreign.remove(place);
        }
        let bits = if matches!(addr, IpAddress::Ipv4(_)) { 32 } else { 128 };
        if self.foreign.push(IpCidr::new(addr, bits)).is_ok() {
            self.tell_addresses();
        }
    }

    fn is_own(&self, addr: &IpAddress) -> bool {
        self.ip_addrs().iter().any(|cidr| cidr.address() == *addr)
    }

    /// Tells the host below its addresses: the own ones, and behind them the others.
    pub(super) fn tell_addresses(&mut self) {
        let mut list = crate::kit::Vec::new(Global);
        for cidr in self.addresses.iter().chain(&self.foreign) {
            list.push((*cidr).into()).map_err(|_| ()).expect("memory for the addresses");
        }
        self.host.inner.environment.addresses = list;
    }
}

// Whether a connection has this address.
fn is_used(sockets: &SocketSet<'_>, addr: &IpAddress) -> bool {
    sockets.iter().any(|(_, socket)| match socket {
        Socket::Tcp(tcp) => tcp.local_endpoint().is_some_and(|end| end.addr == *addr),
        _ => false,
    })
}
