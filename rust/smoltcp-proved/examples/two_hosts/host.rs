// Made from crates/two_hosts/src/host.rt by rust/translate: change it there.
//! A host: a socket of each kind, and the interface that serves them.

use crate::context::{Interface, MTU, Words};
use crate::memory::Sockets;
use smoltcp_proved::kit::Vec;
use smoltcp_proved::kit::alloc::{AllocError, Global};
use smoltcp_proved::proved::net_host::{IpCidr, SocketHandle, SocketSet};
use smoltcp_proved::sockets::time::Instant;
use smoltcp_proved::sockets::wire::{IpAddress, Ipv4Address};
use smoltcp_proved::sockets::{PollAt, Socket, tcp};

/// How many sockets a host has.
pub const SOCKETS: usize = 4;

/// A moment of the simulation, and where is allocated what is made at it.
#[derive(Clone, Copy)]
pub struct Moment {
    /// Where it allocates.
    pub alloc: Global,
    /// The time, in milliseconds.
    pub millis: u32,
}

impl Moment {
    /// The time as an interface takes it.
    pub fn instant(&self) -> Instant {
        Instant::from_millis(i64::from(self.millis))
    }
}

/// A host with one interface. The set is a type parameter, as the check does not yet state a struct that has one in a
/// field.
pub struct Host<S> {
    /// Its interface.
    pub interface: Interface,
    /// Its sockets, of any kind.
    pub sockets: S,
}

/// A host with a set of sockets.
pub type FullHost<'a> = Host<SocketSet<'a>>;

impl<'a> Host<SocketSet<'a>> {
    /// A host at this address, with a socket of each kind. `word` is the seed of its random words.
    pub fn new(
        alloc: Global,
        addr: Ipv4Address,
        word: u32,
        tcp: tcp::Socket<'a>,
        others: Sockets<'a>,
    ) -> Result<FullHost<'a>, AllocError> {
        let mut addresses = Vec::new(alloc);
        addresses.push(IpCidr { address: IpAddress::Ipv4(addr), prefix_len: 24 })?;
        let Sockets { udp, icmp, raw } = others;
        let mut sockets = SocketSet::new(alloc, SOCKETS)?;
        for socket in [Socket::Tcp(tcp), Socket::Udp(udp), Socket::Icmp(icmp), Socket::Raw(raw)] {
            if sockets.add(socket).is_err() {
                return Err(AllocError);
            }
        }
        Ok(Host { interface: Interface::new(addresses, Words { word }), sockets })
    }

    /// The handle of the socket of each kind: TCP is 0, UDP 1, ICMP 2, raw 3.
    pub fn handle(&self, place: usize) -> Option<SocketHandle> {
        self.sockets.handle_at(place)
    }

    /// When the host wants to be served: the earliest of what its sockets say.
    pub fn poll_at(&self) -> PollAt {
        self.interface.poll_at(&self.sockets)
    }

    /// Writes the next packet that is due now, and answers its length, 0 where none is.
    pub fn emit(&mut self, now: Moment, packet: &mut [u8; MTU]) -> usize {
        self.interface.emit(&mut self.sockets, now.instant(), packet).unwrap_or(0).min(MTU)
    }

    /// Takes a packet that has arrived, and writes what answers it: its length, 0 where nothing does.
    pub fn receive(&mut self, now: Moment, packet: &[u8], reply: &mut [u8; MTU]) -> usize {
        self.interface.receive(&mut self.sockets, now.instant(), packet, reply).unwrap_or(0).min(MTU)
    }
}
