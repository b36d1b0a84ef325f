//! Raw sockets, which take and send whole IP packets.
use super::Context;
use super::wakers::{Wakers, of_packets, written};
use crate::proved::ip_wire::{IpProtocol, IpRepr, IpVersion};
use crate::proved::sock_dgram::raw as proved;

pub use proved::{BindError, PacketBuffer, PacketMetadata, RecvError, SendError};

/// A raw socket over two buffers; what it has beside is [`proved::Socket`]'s.
#[derive(Debug)]
pub struct Socket<'a> {
    proved: proved::Socket<'a>,
    wakers: Wakers,
}

impl<'a> Socket<'a> {
    /// A socket for the packets of this version and protocol, each where one is given, over these two buffers.
    pub fn new(
        ip_version: Option<IpVersion>,
        ip_protocol: Option<IpProtocol>,
        rx_buffer: PacketBuffer<'a>,
        tx_buffer: PacketBuffer<'a>,
    ) -> Socket<'a> {
        proved::Socket::new(ip_version, ip_protocol, rx_buffer, tx_buffer).into()
    }

    /// The two buffers, with what stands in their queues: the receive buffer first.
    pub fn into_buffers(self) -> (PacketBuffer<'a>, PacketBuffer<'a>) {
        self.proved.into_buffers()
    }

    /// Puts a packet whose bytes `f` writes into the transmit queue: `f` is lent `max_size` bytes and answers how many of
    /// them, from the first on, are the packet. This count is answered.
    ///
    /// # Errors
    /// `BufferFull` where there is no room for `max_size` bytes.
    ///
    /// # Panics
    /// Where `f` answers more than it was lent.
    pub fn send_with<F: FnOnce(&mut [u8]) -> usize>(
        &mut self,
        max_size: usize,
        f: F,
    ) -> Result<usize, SendError> {
        self.proved.send_with(max_size, |room| written(room, f))
    }

    /// Puts a packet that `accepts` holds of into the receive queue, where there is room, and wakes who waits.
    pub fn process<C: Context>(&mut self, cx: &C, ip_repr: &IpRepr, payload: &[u8]) {
        self.proved.process(cx, ip_repr, payload);
        self.wakers.wake_recv();
    }

    /// Emits the first packet of the transmit queue, as the proved call of this name, and wakes who waits for room.
    pub fn dispatch<C: Context, E, F: FnOnce(&mut C, (IpRepr, &[u8])) -> Result<(), E>>(
        &mut self,
        cx: &mut C,
        emit: F,
    ) -> Result<(), E> {
        self.dispatched(|socket| socket.dispatch(cx, emit))
    }
}

impl<'a> From<proved::Socket<'a>> for Socket<'a> {
    fn from(proved: proved::Socket<'a>) -> Socket<'a> {
        Socket { proved, wakers: Wakers::default() }
    }
}

of_packets!(proved, "a packet", "");
