// Made from crates/socket_script/src/storage.rt by rust/translate: change it there.
//! The memory of sockets, and sockets over it.

use crate::kit::alloc::{AllocError, Global};
use crate::kit::{Vec, vec};
use crate::proved::drill_lines::room::{BYTES, PLACES, Queues, Room};
use crate::proved::ip_wire::{IpAddress, IpProtocol, IpVersion};
use crate::proved::smoltcp_socket::storage::{PacketBuffer, PacketMetadata, RingBuffer};
use crate::proved::smoltcp_socket::udp::UdpMetadata;
use crate::proved::smoltcp_socket::{Socket, icmp, raw, tcp, udp};
use crate::proved::socket_script::clock::Clock;

/// The memory of a socket.
pub enum Memory {
    Tcp { rx: Vec<u8>, tx: Vec<u8> },
    Udp(PacketMemory<UdpMetadata>),
    Icmp(PacketMemory<IpAddress>),
    Raw(Option<IpVersion>, Option<IpProtocol>, PacketMemory<()>),
}

impl Memory {
    /// Memory for a socket, as much as the room says.
    pub fn of(alloc: Global, room: Room) -> Result<Memory, AllocError> {
        match room {
            Room::Tcp { rx, tx } => Ok(Memory::Tcp { rx: bytes(alloc, rx)?, tx: bytes(alloc, tx)? }),
            Room::Udp(queues) => Ok(Memory::Udp(PacketMemory::of(alloc, queues)?)),
            Room::Icmp(queues) => Ok(Memory::Icmp(PacketMemory::of(alloc, queues)?)),
            Room::Raw(version, protocol, queues) => {
                Ok(Memory::Raw(version, protocol, PacketMemory::of(alloc, queues)?))
            }
        }
    }
}

fn bytes(alloc: Global, count: usize) -> Result<Vec<u8>, AllocError> {
    vec![in alloc; 0u8; count.min(BYTES)]
}

/// The memory of a socket of packets: places for them and their bytes, of what comes and of what goes.
pub struct PacketMemory<H> {
    rx_places: Vec<PacketMetadata<H>>,
    rx: Vec<u8>,
    tx_places: Vec<PacketMetadata<H>>,
    tx: Vec<u8>,
}

impl<H: Copy> PacketMemory<H> {
    fn of(alloc: Global, queues: Queues) -> Result<PacketMemory<H>, AllocError> {
        Ok(PacketMemory {
            rx_places: vec![in alloc; PacketMetadata::EMPTY; queues.rx_places.min(PLACES)]?,
            rx: bytes(alloc, queues.rx_bytes)?,
            tx_places: vec![in alloc; PacketMetadata::EMPTY; queues.tx_places.min(PLACES)]?,
            tx: bytes(alloc, queues.tx_bytes)?,
        })
    }

    // The queues of what comes and of what goes.
    fn buffers(&mut self) -> (PacketBuffer<'_, H>, PacketBuffer<'_, H>) {
        (
            PacketBuffer::new(self.rx_places.as_mut_slice(), self.rx.as_mut_slice()),
            PacketBuffer::new(self.tx_places.as_mut_slice(), self.tx.as_mut_slice()),
        )
    }
}

/// A socket over this memory, closed and not bound.
pub fn socket_over(memory: &mut Memory) -> Socket<'_, Clock> {
    match memory {
        Memory::Tcp { rx, tx } => Socket::Tcp(tcp_over(rx.as_mut_slice(), tx.as_mut_slice())),
        Memory::Udp(packets) => {
            let (rx, tx) = packets.buffers();
            Socket::Udp(udp::Socket::new(rx, tx))
        }
        Memory::Icmp(packets) => {
            let (rx, tx) = packets.buffers();
            Socket::Icmp(icmp::Socket::new(rx, tx))
        }
        Memory::Raw(version, protocol, packets) => {
            let (rx, tx) = packets.buffers();
            Socket::Raw(raw::Socket::new(*version, *protocol, rx, tx))
        }
    }
}

fn tcp_over<'a>(rx: &'a mut [u8], tx: &'a mut [u8]) -> tcp::Socket<'a, Clock> {
    let (rx_len, tx_len) = (rx.len().min(BYTES), tx.len().min(BYTES));
    let rx_buffer = RingBuffer::new(&mut rx[..rx_len]);
    let tx_buffer = RingBuffer::new(&mut tx[..tx_len]);
    tcp::Socket::closed(rx_buffer, tx_buffer, None)
}
