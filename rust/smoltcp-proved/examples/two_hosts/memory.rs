// Made from crates/two_hosts/src/memory.rt by rust/translate: change it there.
//! The memory of a host's datagram sockets: a socket allocates nothing, and queues what it sends and receives in
//! buffers that it is lent.

use smoltcp_proved::sockets::storage::PacketBuffer;
use smoltcp_proved::sockets::wire::{IpProtocol, IpVersion};
use smoltcp_proved::sockets::{icmp, raw, udp};

/// One datagram socket of each kind.
pub struct Sockets<'a> {
    /// UDP.
    pub udp: udp::Socket<'a>,
    /// ICMP.
    pub icmp: icmp::Socket<'a>,
    /// Whole IP packets.
    pub raw: raw::Socket<'a>,
}

/// The buffers of one datagram socket of each kind: places for packets and their bytes, of what comes and of what goes.
pub struct Memory {
    udp_rx_places: [udp::PacketMetadata; 4],
    udp_rx: [u8; 256],
    udp_tx_places: [udp::PacketMetadata; 4],
    udp_tx: [u8; 256],
    icmp_rx_places: [icmp::PacketMetadata; 4],
    icmp_rx: [u8; 256],
    icmp_tx_places: [icmp::PacketMetadata; 4],
    icmp_tx: [u8; 256],
    raw_rx_places: [raw::PacketMetadata; 4],
    raw_rx: [u8; 256],
    raw_tx_places: [raw::PacketMetadata; 4],
    raw_tx: [u8; 256],
}

impl Memory {
    /// Empty buffers.
    pub fn new() -> Memory {
        Memory {
            udp_rx_places: [udp::PacketMetadata::EMPTY; 4],
            udp_rx: [0; 256],
            udp_tx_places: [udp::PacketMetadata::EMPTY; 4],
            udp_tx: [0; 256],
            icmp_rx_places: [icmp::PacketMetadata::EMPTY; 4],
            icmp_rx: [0; 256],
            icmp_tx_places: [icmp::PacketMetadata::EMPTY; 4],
            icmp_tx: [0; 256],
            raw_rx_places: [raw::PacketMetadata::EMPTY; 4],
            raw_rx: [0; 256],
            raw_tx_places: [raw::PacketMetadata::EMPTY; 4],
            raw_tx: [0; 256],
        }
    }

    /// Sockets over these buffers, none of them open. The raw one is for IPv4 packets of this protocol.
    pub fn sockets(&mut self, protocol: IpProtocol) -> Sockets<'_> {
        let Memory {
            udp_rx_places,
            udp_rx,
            udp_tx_places,
            udp_tx,
            icmp_rx_places,
            icmp_rx,
            icmp_tx_places,
            icmp_tx,
            raw_rx_places,
            raw_rx,
            raw_tx_places,
            raw_tx,
        } = self;
        Sockets {
            udp: udp::Socket::new(
                PacketBuffer::new(udp_rx_places, udp_rx),
                PacketBuffer::new(udp_tx_places, udp_tx),
            ),
            icmp: icmp::Socket::new(
                PacketBuffer::new(icmp_rx_places, icmp_rx),
                PacketBuffer::new(icmp_tx_places, icmp_tx),
            ),
            raw: raw::Socket::new(
                Some(IpVersion::Ipv4),
                Some(protocol),
                PacketBuffer::new(raw_rx_places, raw_rx),
                PacketBuffer::new(raw_tx_places, raw_tx),
            ),
        }
    }
}
