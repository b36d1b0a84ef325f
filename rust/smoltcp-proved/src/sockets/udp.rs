//! UDP sockets (RFC 768).
use super::Context;
use super::wakers::{Wakers, of_packets, written};
use crate::phy::PacketMeta;
use crate::proved::control_wire::UdpRepr;
use crate::proved::ip_wire::{IpAddress, IpEndpoint, IpListenEndpoint, IpRepr};
use crate::proved::sock_dgram::udp as proved;
use core::fmt;

pub use proved::{BindError, PacketBuffer, PacketMetadata, RecvError, SendError};

/// Where a datagram came from or goes to, and the own address.
#[derive(Debug, Clone, Copy, PartialEq, Eq)]
pub struct UdpMetadata {
    /// The other side.
    pub endpoint: IpEndpoint,
    /// Of a datagram that came, the address that it was sent to. Of one to send, the address to send it from; where
    /// there is none, the bound address, else one that the context chooses.
    pub local_address: Option<IpAddress>,
    /// The marks of the packet: there are none, and what is set of them is not kept.
    pub meta: PacketMeta,
}

impl UdpMetadata {
    /// To or from this endpoint, with no own address.
    pub fn from_endpoint(endpoint: IpEndpoint) -> UdpMetadata {
        UdpMetadata { endpoint, local_address: None, meta: PacketMeta::default() }
    }

    fn proved(self) -> proved::UdpMetadata {
        proved::UdpMetadata { endpoint: self.endpoint, local_address: self.local_address }
    }
}

impl<T: Into<IpEndpoint>> From<T> for UdpMetadata {
    fn from(endpoint: T) -> UdpMetadata {
        UdpMetadata::from_endpoint(endpoint.into())
    }
}

impl From<proved::UdpMetadata> for UdpMetadata {
    fn from(meta: proved::UdpMetadata) -> UdpMetadata {
        UdpMetadata { local_address: meta.local_address, ..UdpMetadata::from_endpoint(meta.endpoint) }
    }
}

/// The endpoint, `10.0.0.1:80`.
impl fmt::Display for UdpMetadata {
    fn fmt(&self, f: &mut fmt::Formatter<'_>) -> fmt::Result {
        fmt::Display::fmt(&self.endpoint, f)
    }
}

/// A UDP socket over two buffers; what it has beside is [`proved::Socket`]'s.
#[derive(Debug)]
pub struct Socket<'a> {
    proved: proved::Socket<'a>,
    wakers: Wakers,
    // what `peek` lends
    peeked: UdpMetadata,
}

impl<'a> Socket<'a> {
    /// A socket that is not open, over these two buffers.
    pub fn new(rx_buffer: PacketBuffer<'a>, tx_buffer: PacketBuffer<'a>) -> Socket<'a> {
        proved::Socket::new(rx_buffer, tx_buffer).into()
    }

    /// The two buffers, with what stands in their queues: the receive buffer first.
    pub fn into_buffers(self) -> (PacketBuffer<'a>, PacketBuffer<'a>) {
        self.proved.into_buffers()
    }

    /// Opens the socket for datagrams to this port, and to this address where one is given, and wakes who waits.
    ///
    /// # Errors
    /// `Unaddressable` where the port is zero; else `InvalidState` where the socket is open. A refusal changes nothing.
    pub fn bind<T: Into<IpListenEndpoint>>(&mut self, endpoint: T) -> Result<(), BindError> {
        self.proved.bind(endpoint)?;
        self.wakers.wake_both();
        Ok(())
    }

    /// Closes the socket: it is bound to nothing, and both queues are empty. Wakes who waits.
    pub fn close(&mut self) {
        self.proved.close();
        self.wakers.wake_both();
    }

    /// Puts a datagram of `size` bytes into the transmit queue, and lends its bytes. What stands in them as the borrow
    /// ends is the payload.
    ///
    /// # Errors
    /// As [`Socket::send_slice`]; the queue then stays as it was.
    pub fn send(&mut self, size: usize, meta: impl Into<UdpMetadata>) -> Result<&mut [u8], SendError> {
        self.proved.send(size, meta.into().proved())
    }

    /// Puts a datagram whose bytes `f` writes into the transmit queue: `f` is lent `max_size` bytes and answers how
    /// many of them, from the first on, are the payload. This count is answered.
    ///
    /// # Errors
    /// As [`Socket::send_slice`], for a datagram of `max_size` bytes; the queue then stays as it was.
    ///
    /// # Panics
    /// Where `f` answers more than it was lent.
    pub fn send_with<F: FnOnce(&mut [u8]) -> usize>(
        &mut self,
        max_size: usize,
        meta: impl Into<UdpMetadata>,
        f: F,
    ) -> Result<usize, SendError> {
        self.proved.send_with(max_size, meta.into().proved(), |room| written(room, f))
    }

    /// Puts a datagram of these bytes into the transmit queue.
    ///
    /// # Errors
    /// `Unaddressable` where the socket is not open, the destination's address is unspecified or its port zero, or the
    /// source (the address given, else the bound one) is of another version of IP than the destination; else
    /// `BufferFull` where the transmit buffer has no room for it. A refusal leaves the queue as it was.
    pub fn send_slice(&mut self, data: &[u8], meta: impl Into<UdpMetadata>) -> Result<(), SendError> {
        self.proved.send_slice(data, meta.into().proved())
    }

    /// Takes the first datagram out of the receive queue, and lends its bytes.
    ///
    /// # Errors
    /// `Exhausted` where there is none.
    pub fn recv(&mut self) -> Result<(&[u8], UdpMetadata), RecvError> {
        self.proved.recv().map(|(bytes, meta)| (bytes, meta.into()))
    }

    /// Takes the first datagram out of the receive queue and copies its bytes to the beginning of `data`; answers how
    /// many they are.
    ///
    /// # Errors
    /// `Exhausted` where there is none; `Truncated` where `data` is too short: the datagram is gone then.
    pub fn recv_slice(&mut self, data: &mut [u8]) -> Result<(usize, UdpMetadata), RecvError> {
        self.proved.recv_slice(data).map(|(len, meta)| (len, meta.into()))
    }

    /// Lends the first datagram of the receive queue, which stays there.
    ///
    /// # Errors
    /// `Exhausted` where there is none.
    pub fn peek(&mut self) -> Result<(&[u8], &UdpMetadata), RecvError> {
        let (bytes, meta) = self.proved.peek()?;
        self.peeked = (*meta).into();
        Ok((bytes, &self.peeked))
    }

    /// Copies the first datagram of the receive queue, which stays there, to the beginning of `data`.
    ///
    /// # Errors
    /// `Exhausted` where there is none; `Truncated` where `data` is too short.
    pub fn peek_slice(&mut self, data: &mut [u8]) -> Result<(usize, &UdpMetadata), RecvError> {
        let (len, meta) = self.proved.peek_slice(data)?;
        self.peeked = (*meta).into();
        Ok((len, &self.peeked))
    }

    /// Puts a datagram that `accepts` holds of into the receive queue, where there is room, and wakes who waits.
    pub fn process<C: Context>(&mut self, cx: &C, ip_repr: &IpRepr, repr: &UdpRepr, payload: &[u8]) {
        self.proved.process(cx, ip_repr, repr, payload);
        self.wakers.wake_recv();
    }

    /// Emits the first datagram of the transmit queue, as the proved call of this name, and wakes who waits for room.
    pub fn dispatch<C: Context, E, F: FnOnce(&mut C, (IpRepr, UdpRepr, &[u8])) -> Result<(), E>>(
        &mut self,
        cx: &mut C,
        emit: F,
    ) -> Result<(), E> {
        self.dispatched(|socket| socket.dispatch(cx, emit))
    }
}

impl<'a> From<proved::Socket<'a>> for Socket<'a> {
    fn from(proved: proved::Socket<'a>) -> Socket<'a> {
        let nobody = IpEndpoint::new(IpAddress::v4(0, 0, 0, 0), 0);
        Socket { proved, wakers: Wakers::default(), peeked: UdpMetadata::from_endpoint(nobody) }
    }
}

of_packets!(proved, "a datagram", ", or the socket was bound or closed");
