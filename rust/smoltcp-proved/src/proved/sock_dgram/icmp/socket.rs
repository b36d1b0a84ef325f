// Made from crates/sock_dgram/src/icmp/socket.rt by rust/translate: change it there.
//! The ICMP socket: what it is bound to, and its two queues.

use crate::proved::ip_wire::IpAddress;
use crate::proved::sock_core::{Context, PollAt};
use crate::proved::sock_dgram::error::BindError;
use crate::proved::sock_dgram::icmp::endpoint::Endpoint;
use crate::proved::sock_dgram::queue::poll_moment;

/// A place of a packet buffer.
pub type PacketMetadata = crate::proved::net_base::packet_buffer::PacketMetadata<IpAddress>;

/// A queue of ICMP messages over lent places and lent bytes, each with the address of the other side.
pub type PacketBuffer<'a> = crate::proved::net_base::packet_buffer::PacketBuffer<'a, IpAddress>;

/// An ICMP socket over two lent buffers.
#[derive(Debug)]
pub struct Socket<'a> {
    pub(crate) endpoint: Endpoint,
    pub(crate) rx_buffer: PacketBuffer<'a>,
    pub(crate) tx_buffer: PacketBuffer<'a>,
    pub(crate) hop_limit: Option<u8>,
}

impl<'a> Socket<'a> {
    /// A socket that is not open, over these two buffers.
    pub fn new(rx_buffer: PacketBuffer<'a>, tx_buffer: PacketBuffer<'a>) -> Socket<'a> {
        Socket { endpoint: Endpoint::Unspecified, rx_buffer, tx_buffer, hop_limit: None }
    }

    /// The two buffers, with what stands in their queues: the receive buffer first.
    pub fn into_buffers(self) -> (PacketBuffer<'a>, PacketBuffer<'a>) {
        let Socket { endpoint: _, rx_buffer, tx_buffer, hop_limit: _ } = self;
        (rx_buffer, tx_buffer)
    }

    /// Opens the socket for the messages that the endpoint names.
    ///
    /// # Errors
    /// `Unaddressable` where it names none (`Endpoint::is_specified`); else `InvalidState` where the socket is open. A
    /// refusal changes nothing.
    pub fn bind(&mut self, endpoint: Endpoint) -> Result<(), BindError> {
        if !endpoint.is_specified() {
            return Err(BindError::Unaddressable);
        }
        if self.is_open() {
            return Err(BindError::InvalidState);
        }
        self.endpoint = endpoint;
        Ok(())
    }

    /// Whether the socket is bound.
    pub fn is_open(&self) -> bool {
        !matches!(self.endpoint, Endpoint::Unspecified)
    }

    /// The hop limit of what is sent; 64 where none is set.
    pub fn hop_limit(&self) -> Option<u8> {
        self.hop_limit
    }

    /// Sets the hop limit of what is sent, 1 to 255, or none for 64 (RFC 1122, section 3.2.1.7).
    pub fn set_hop_limit(&mut self, hop_limit: Option<u8>) {
        self.hop_limit = hop_limit;
    }

    /// Whether the transmit buffer has a free place.
    pub fn can_send(&self) -> bool {
        !self.tx_buffer.is_full()
    }

    /// Whether a place of the receive buffer is taken.
    pub fn can_recv(&self) -> bool {
        !self.rx_buffer.is_empty()
    }

    /// How many messages the receive buffer has places for.
    pub fn packet_recv_capacity(&self) -> usize {
        self.rx_buffer.packet_capacity()
    }

    /// How many messages the transmit buffer has places for.
    pub fn packet_send_capacity(&self) -> usize {
        self.tx_buffer.packet_capacity()
    }

    /// How many payload bytes the receive buffer has places for.
    pub fn payload_recv_capacity(&self) -> usize {
        self.rx_buffer.payload_capacity()
    }

    /// How many payload bytes the transmit buffer has places for.
    pub fn payload_send_capacity(&self) -> usize {
        self.tx_buffer.payload_capacity()
    }

    /// How many payload bytes of the transmit buffer are taken, padding included.
    pub fn send_queue(&self) -> usize {
        self.tx_buffer.payload_bytes_count()
    }

    /// How many payload bytes of the receive buffer are taken, padding included.
    pub fn recv_queue(&self) -> usize {
        self.rx_buffer.payload_bytes_count()
    }

    /// When the socket wants its next `dispatch`: `Ingress` where no place of the transmit buffer is taken, else `Now`.
    pub fn poll_at<C: Context>(&self, _cx: &C) -> PollAt {
        poll_moment(&self.tx_buffer)
    }
}
