//! ICMP sockets, which take and send echoes, and hear errors about what was sent from a port.
use super::Context;
use super::wakers::{Wakers, of_packets, written};
use crate::proved::control_wire::{IcmpRepr, Icmpv4Repr, Icmpv6Repr};
use crate::proved::ip_wire::{IpAddress, IpRepr, Ipv4Repr, Ipv6Repr};
use crate::proved::sock_dgram::icmp as proved;

pub use proved::{BindError, Endpoint, PacketBuffer, PacketMetadata, RecvError, SendError};

/// An ICMP socket over two buffers; what it has beside is [`proved::Socket`]'s.
#[derive(Debug)]
pub struct Socket<'a> {
    proved: proved::Socket<'a>,
    wakers: Wakers,
}

impl<'a> Socket<'a> {
    /// A socket that is not open, over these two buffers.
    pub fn new(rx_buffer: PacketBuffer<'a>, tx_buffer: PacketBuffer<'a>) -> Socket<'a> {
        proved::Socket::new(rx_buffer, tx_buffer).into()
    }

    /// The two buffers, with what stands in their queues: the receive buffer first.
    pub fn into_buffers(self) -> (PacketBuffer<'a>, PacketBuffer<'a>) {
        self.proved.into_buffers()
    }

    /// Opens the socket for these messages, and wakes who waits.
    ///
    /// # Errors
    /// `Unaddressable` where the endpoint is not specified; else `InvalidState` where the socket is open. A refusal
    /// changes nothing.
    pub fn bind<T: Into<Endpoint>>(&mut self, endpoint: T) -> Result<(), BindError> {
        self.proved.bind(endpoint.into())?;
        self.wakers.wake_both();
        Ok(())
    }

    /// Puts a message whose bytes `f` writes into the transmit queue: `f` is lent `max_size` bytes and answers how many
    /// of them, from the first on, are the message. This count is answered.
    ///
    /// # Errors
    /// As the proved call of this name.
    ///
    /// # Panics
    /// Where `f` answers more than it was lent.
    pub fn send_with<F: FnOnce(&mut [u8]) -> usize>(
        &mut self,
        max_size: usize,
        endpoint: IpAddress,
        f: F,
    ) -> Result<usize, SendError> {
        self.proved.send_with(max_size, endpoint, |room| written(room, f))
    }

    /// Puts a message over IPv4 that `accepts_v4` holds of into the receive queue, where there is room, and wakes who
    /// waits.
    pub fn process_v4<C: Context>(&mut self, cx: &C, ip_repr: &Ipv4Repr, icmp_repr: &Icmpv4Repr<'_>) {
        self.proved.process_v4(cx, ip_repr, icmp_repr);
        self.wakers.wake_recv();
    }

    /// Puts a message over IPv6 that `accepts_v6` holds of into the receive queue, where there is room, and wakes who
    /// waits.
    pub fn process_v6<C: Context>(&mut self, cx: &C, ip_repr: &Ipv6Repr, icmp_repr: &Icmpv6Repr<'_>) {
        self.proved.process_v6(cx, ip_repr, icmp_repr);
        self.wakers.wake_recv();
    }

    /// Emits the first message of the transmit queue, as the proved call of this name, and wakes who waits for room.
    pub fn dispatch<C: Context, E, F: FnOnce(&mut C, (IpRepr, IcmpRepr<'_>)) -> Result<(), E>>(
        &mut self,
        cx: &mut C,
        emit: F,
    ) -> Result<(), E> {
        self.dispatched(|socket| socket.dispatch(cx, emit))
    }
}

impl<'a> From<proved::Socket<'a>> for Socket<'a> {
    fn from(proved: proved::Socket<'a>) -> Socket<'a> {
        Socket { proved, wakers: Wakers::default() }
    }
}

of_packets!(proved, "a message", ", or the socket was bound");
