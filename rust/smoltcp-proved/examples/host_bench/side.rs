// Made from crates/host_bench/src/side.rt by rust/translate: change it there.
//! A host with TCP sockets, and what its application does with one of them.

use crate::clock::Clock;
use crate::draw::Digest;
use smoltcp_proved::kit::Vec;
use smoltcp_proved::kit::alloc::{AllocError, Global};
use smoltcp_proved::proved::net_host::{Interface, IpCidr, Secret, SocketHandle, SocketSet};
use smoltcp_proved::sockets::Socket;
use smoltcp_proved::sockets::storage::RingBuffer;
use smoltcp_proved::sockets::tcp::{self, CongestionControl, Rules, State};
use smoltcp_proved::sockets::time::{Duration, Instant};
use smoltcp_proved::sockets::wire::{IpAddress, IpEndpoint, IpListenEndpoint, Ipv4Address};

/// The longest packet, and the longest reply.
pub const PACKET: usize = 1500;

/// The client's address, and the server's.
pub const CLIENT: Ipv4Address = smoltcp_proved::kit::ipv4([10, 0, 0, 1]);

pub const SERVER: Ipv4Address = smoltcp_proved::kit::ipv4([10, 0, 0, 2]);

// The server's port.
const PORT: u16 = 7;

// The lowest retransmission timeout, as Linux's.
const LEAST_TIMEOUT: Duration = Duration { micros: 200_000 };

/// A host and the handles of its sockets. The set is a type parameter, as the check does not yet state a struct that
/// has one in a field.
pub struct Host<S> {
    interface: Interface<Secret>,
    sockets: S,
    handles: Vec<SocketHandle>,
}

/// A host with TCP sockets.
pub type Side<'a> = Host<SocketSet<'a, Clock>>;

impl<'a> Host<SocketSet<'a, Clock>> {
    /// A host with as many sockets as the bytes have pairs of buffers of this size.
    pub fn new(
        alloc: Global,
        address: Ipv4Address,
        bytes: &'a mut [u8],
        size: usize,
        count: usize,
    ) -> Result<Side<'a>, AllocError> {
        let mut addresses = Vec::new(alloc);
        addresses.push(IpCidr { address: IpAddress::Ipv4(address), prefix_len: 24 })?;
        let mut side = Host {
            interface: Interface::new(addresses, Secret::new([7; 32])),
            sockets: SocketSet::new(alloc, count)?,
            handles: Vec::new(alloc),
        };
        if size == 0 {
            return Ok(side);
        }
        let mut buffers = bytes.chunks_exact_mut(size);
        for _ in 0..count {
            let (Some(rx), Some(tx)) = (buffers.next(), buffers.next()) else {
                break;
            };
            side.add(rx, tx)?;
        }
        Ok(side)
    }

    fn add(&mut self, rx: &'a mut [u8], tx: &'a mut [u8]) -> Result<(), AllocError> {
        // a socket wants to know that
        if rx.len() > 1 << 30 || tx.len() > 1 << 30 {
            return Err(AllocError);
        }
        let mut socket = tcp::Socket::closed(RingBuffer::new(rx), RingBuffer::new(tx), None);
        let _ = socket.set_rules(Rules::Rfc);
        socket.set_min_rto(LEAST_TIMEOUT);
        socket.set_congestion_control(CongestionControl::Reno);
        match self.sockets.add(Socket::Tcp(socket)) {
            Ok(handle) => {
                self.handles.push(handle)?;
                Ok(())
            }
            Err(_) => Err(AllocError),
        }
    }

    fn socket(&mut self, i: usize) -> Option<&mut tcp::Socket<'a, Clock>> {
        let handle = *self.handles.get(i)?;
        self.sockets.tcp_mut(handle)
    }

    /// The socket listens.
    pub fn listen(&mut self, i: usize) {
        if let Some(socket) = self.socket(i) {
            let _ = socket.listen(port(PORT));
        }
    }

    /// The socket connects to the server, from this port.
    pub fn connect(&mut self, i: usize, from: u16) {
        let Some(handle) = self.handles.get(i) else {
            return;
        };
        let remote = IpEndpoint { addr: IpAddress::Ipv4(SERVER), port: PORT };
        if let Some(socket) = self.sockets.tcp_mut(*handle) {
            let _ = socket.connect(self.interface.context(), remote, port(from));
        }
    }

    /// Writes as much of the bytes as the socket takes; how many it took.
    pub fn send(&mut self, i: usize, bytes: &[u8]) -> usize {
        match self.socket(i) {
            Some(socket) => socket.send_slice(bytes).unwrap_or(0),
            None => 0,
        }
    }

    /// Reads what came to the socket; how many bytes.
    pub fn read(&mut self, i: usize, digest: &mut Digest) -> usize {
        let mut bytes = [0u8; 4096];
        let Some(socket) = self.socket(i) else {
            return 0;
        };
        let count = socket.recv_slice(&mut bytes).unwrap_or(0).min(4096);
        digest.add(&bytes[..count]);
        count
    }

    /// Closes the socket.
    pub fn close(&mut self, i: usize) {
        if let Some(socket) = self.socket(i) {
            socket.close();
        }
    }

    /// Ends the socket's connection at once.
    pub fn abort(&mut self, i: usize) {
        if let Some(socket) = self.socket(i) {
            socket.abort();
        }
    }

    /// Whether the connection of the socket stands.
    pub fn is_open(&mut self, i: usize) -> bool {
        match self.socket(i) {
            Some(socket) => socket.state() == State::Established,
            None => false,
        }
    }

    /// The next packet that is due at this moment: how long it is, 0 where none is.
    pub fn emit(&mut self, now: Instant, packet: &mut [u8; PACKET]) -> usize {
        self.interface.emit(&mut self.sockets, now, packet).unwrap_or(0).min(PACKET)
    }

    /// Takes a packet: how long the answer is, 0 where there is none.
    pub fn receive(&mut self, now: Instant, packet: &[u8], reply: &mut [u8; PACKET]) -> usize {
        self.interface.receive(&mut self.sockets, now, packet, reply).unwrap_or(0).min(PACKET)
    }
}

fn port(port: u16) -> IpListenEndpoint {
    IpListenEndpoint { addr: None, port }
}
