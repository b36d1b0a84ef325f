// Made from crates/sock_dgram/src/raw/socket.rt by rust/translate: change it there.
//! The raw socket: which packets it takes, and its two queues.

use crate::proved::ip_wire::{IpProtocol, IpVersion};
use crate::proved::sock_core::{Context, PollAt};
use crate::proved::sock_dgram::queue::poll_moment;

/// A place of a packet buffer.
pub type PacketMetadata = crate::proved::net_base::packet_buffer::PacketMetadata<()>;

/// A queue of packets over lent places and lent bytes.
pub type PacketBuffer<'a> = crate::proved::net_base::packet_buffer::PacketBuffer<'a, ()>;

/// A raw socket over two lent buffers: whole IP packets, headers included, go in and out.
#[derive(Debug)]
pub struct Socket<'a> {
    ip_version: Option<IpVersion>,
    ip_protocol: Option<IpProtocol>,
    pub(crate) rx_buffer: PacketBuffer<'a>,
    pub(crate) tx_buffer: PacketBuffer<'a>,
}

impl<'a> Socket<'a> {
    /// A socket for packets of this version of IP, or of both, and of this protocol, or of any, over these two buffers.
    pub fn new(
        ip_version: Option<IpVersion>,
        ip_protocol: Option<IpProtocol>,
        rx_buffer: PacketBuffer<'a>,
        tx_buffer: PacketBuffer<'a>,
    ) -> Socket<'a> {
        Socket { ip_version, ip_protocol, rx_buffer, tx_buffer }
    }

    /// The two buffers, with what stands in their queues: the receive buffer first.
    pub fn into_buffers(self) -> (PacketBuffer<'a>, PacketBuffer<'a>) {
        let Socket { ip_version: _, ip_protocol: _, rx_buffer, tx_buffer } = self;
        (rx_buffer, tx_buffer)
    }

    /// The version of IP of the socket's packets; `None` for both.
    pub fn ip_version(&self) -> Option<IpVersion> {
        self.ip_version
    }

    /// The protocol of the socket's packets; `None` for any.
    pub fn ip_protocol(&self) -> Option<IpProtocol> {
        self.ip_protocol
    }

    /// Whether the transmit buffer has a free place.
    pub fn can_send(&self) -> bool {
        !self.tx_buffer.is_full()
    }

    /// Whether a place of the receive buffer is taken.
    pub fn can_recv(&self) -> bool {
        !self.rx_buffer.is_empty()
    }

    /// How many packets the receive buffer has places for.
    pub fn packet_recv_capacity(&self) -> usize {
        self.rx_buffer.packet_capacity()
    }

    /// How many packets the transmit buffer has places for.
    pub fn packet_send_capacity(&self) -> usize {
        self.tx_buffer.packet_capacity()
    }

    /// How many payload bytes the receive buffer has places for.
    pub fn payload_recv_capacity(&self) -> usize {
        self.rx_buffer.payload_capacity()
    }

    /// How many payload bytes the transmit buffer has places for.
    pub fn payload_send_capacity(&self) -> usize {
        self.tx_buffer.payload_capacity()
    }

    /// How many payload bytes of the transmit buffer are taken, padding included.
    pub fn send_queue(&self) -> usize {
        self.tx_buffer.payload_bytes_count()
    }

    /// How many payload bytes of the receive buffer are taken, padding included.
    pub fn recv_queue(&self) -> usize {
        self.rx_buffer.payload_bytes_count()
    }

    /// When the socket wants its next `dispatch`: `Ingress` where no place of the transmit buffer is taken, else `Now`.
    pub fn poll_at<C: Context>(&self, _cx: &C) -> PollAt {
        poll_moment(&self.tx_buffer)
    }
}
