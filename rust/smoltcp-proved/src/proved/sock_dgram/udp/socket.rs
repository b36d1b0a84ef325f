// Made from crates/sock_dgram/src/udp/socket.rt by rust/translate: change it there.
//! The UDP socket: what it is bound to, and its two queues.

use crate::proved::ip_wire::{IpAddress, IpEndpoint, IpListenEndpoint};
use crate::proved::sock_dgram::error::BindError;
use core::fmt;

/// Where a datagram came from or goes to, and the own address.
#[derive(Debug, Clone, Copy, PartialEq, Eq)]
pub struct UdpMetadata {
    /// The other side.
    pub endpoint: IpEndpoint,
    /// Of a datagram that came, the address that it was sent to. Of one to send, the address to send it from; where
    /// there is none, the bound address, else one that the context chooses.
    pub local_address: Option<IpAddress>,
}

impl UdpMetadata {
    /// To or from this endpoint, with no own address.
    pub fn from_endpoint(endpoint: IpEndpoint) -> UdpMetadata {
        UdpMetadata { endpoint, local_address: None }
    }
}

/// Prints the endpoint, `10.0.0.1:80`.
impl fmt::Display for UdpMetadata {
    fn fmt(&self, f: &mut fmt::Formatter<'_>) -> fmt::Result {
        let endpoint = self.endpoint;
        write!(f, "{endpoint}")
    }
}

/// A place of a packet buffer.
pub type PacketMetadata = crate::proved::net_base::packet_buffer::PacketMetadata<UdpMetadata>;

/// A queue of datagrams over lent places and lent bytes.
pub type PacketBuffer<'a> = crate::proved::net_base::packet_buffer::PacketBuffer<'a, UdpMetadata>;

/// A UDP socket (RFC 768) over two lent buffers.
#[derive(Debug)]
pub struct Socket<'a> {
    pub(crate) endpoint: IpListenEndpoint,
    pub(crate) rx_buffer: PacketBuffer<'a>,
    pub(crate) tx_buffer: PacketBuffer<'a>,
    pub(crate) hop_limit: Option<u8>,
}

impl<'a> Socket<'a> {
    /// A socket that is not open, over these two buffers.
    pub fn new(rx_buffer: PacketBuffer<'a>, tx_buffer: PacketBuffer<'a>) -> Socket<'a> {
        Socket { endpoint: IpListenEndpoint::default(), rx_buffer, tx_buffer, hop_limit: None }
    }

    /// The two buffers, with what stands in their queues: the receive buffer first.
    pub fn into_buffers(self) -> (PacketBuffer<'a>, PacketBuffer<'a>) {
        let Socket { endpoint: _, rx_buffer, tx_buffer, hop_limit: _ } = self;
        (rx_buffer, tx_buffer)
    }

    /// Opens the socket for datagrams to this port, and to this address where one is given.
    ///
    /// # Errors
    /// `Unaddressable` where the port is zero; else `InvalidState` where the socket is open. A refusal changes nothing.
    pub fn bind(&mut self, endpoint: impl Into<IpListenEndpoint>) -> Result<(), BindError> {
        let endpoint = endpoint.into();
        if endpoint.port == 0 {
            return Err(BindError::Unaddressable);
        }
        if self.is_open() {
            return Err(BindError::InvalidState);
        }
        self.endpoint = endpoint;
        Ok(())
    }

    /// Closes the socket: it is bound to nothing, and both queues are empty.
    pub fn close(&mut self) {
        self.endpoint = IpListenEndpoint::default();
        self.rx_buffer.reset();
        self.tx_buffer.reset();
    }

    /// What the socket is bound to; its port is 0 where it is not open.
    pub fn endpoint(&self) -> IpListenEndpoint {
        self.endpoint
    }

    /// Whether the socket is bound.
    pub fn is_open(&self) -> bool {
        self.endpoint.port != 0
    }

    /// The hop limit of what is sent; 64 where none is set.
    pub fn hop_limit(&self) -> Option<u8> {
        self.hop_limit
    }

    /// Sets the hop limit of what is sent, 1 to 255, or none for 64 (RFC 1122, section 3.2.1.7).
    pub fn set_hop_limit(&mut self, hop_limit: Option<u8>) {
        self.hop_limit = hop_limit;
    }

    /// Whether the transmit buffer has a free place.
    pub fn can_send(&self) -> bool {
        !self.tx_buffer.is_full()
    }

    /// Whether a place of the receive buffer is taken.
    pub fn can_recv(&self) -> bool {
        !self.rx_buffer.is_empty()
    }

    /// How many datagrams the receive buffer has places for.
    pub fn packet_recv_capacity(&self) -> usize {
        self.rx_buffer.packet_capacity()
    }

    /// How many datagrams the transmit buffer has places for.
    pub fn packet_send_capacity(&self) -> usize {
        self.tx_buffer.packet_capacity()
    }

    /// How many payload bytes the receive buffer has places for.
    pub fn payload_recv_capacity(&self) -> usize {
        self.rx_buffer.payload_capacity()
    }

    /// How many payload bytes the transmit buffer has places for.
    pub fn payload_send_capacity(&self) -> usize {
        self.tx_buffer.payload_capacity()
    }

    /// How many payload bytes of the transmit buffer are taken, padding included.
    pub fn send_queue(&self) -> usize {
        self.tx_buffer.payload_bytes_count()
    }

    /// How many payload bytes of the receive buffer are taken, padding included.
    pub fn recv_queue(&self) -> usize {
        self.rx_buffer.payload_bytes_count()
    }
}
