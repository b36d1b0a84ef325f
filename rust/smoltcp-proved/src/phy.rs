//! Devices that carry IP packets, with smoltcp's signatures.
use crate::proved::net_base::Instant;
#[cfg(feature = "alloc")]
use alloc::{collections::VecDeque, vec::Vec};

mod fault;
mod pcap;
mod tracer;
#[cfg(feature = "tuntap")]
mod tuntap;

pub use crate::proved::ip_wire::{Checksum, ChecksumCapabilities};
pub use fault::{FaultInjector, FaultyRx, FaultyTx};
pub use pcap::{PcapLinkType, PcapMode, PcapRx, PcapSink, PcapTx, PcapWriter};
pub use tracer::{Tracer, TracerDirection, TracerPacket, TracerToken};
#[cfg(feature = "tuntap")]
pub use tuntap::{TunRx, TunTapInterface, TunTx, wait};

/// Marks of a packet: there are none.
#[derive(Debug, Clone, Copy, PartialEq, Eq, PartialOrd, Ord, Hash, Default)]
#[non_exhaustive]
pub struct PacketMeta {}

/// What a device carries.
#[derive(Debug, Clone, Copy, PartialEq, Eq, Default)]
pub enum Medium {
    /// Ethernet frames: no interface here takes a device of them.
    Ethernet,
    /// IP packets.
    #[default]
    Ip,
    /// Frames of IEEE 802.15.4: no interface here takes a device of them.
    Ieee802154,
}

/// What a device can do.
#[derive(Debug, Clone, Copy, PartialEq, Eq)]
#[non_exhaustive]
pub struct DeviceCapabilities {
    /// What it carries.
    pub medium: Medium,
    /// The largest IP packet, in bytes.
    pub max_transmission_unit: usize,
    /// How many packets it takes at once, where it says so. An interface does not ask.
    pub max_burst_size: Option<usize>,
    /// Which checksums the interface computes and tests.
    pub checksum: ChecksumCapabilities,
    /// Whether packets from an own address to one are taken, as smoltcp does, and a loopback needs. On a network they
    /// are forged (RFC 1122, section 3.2.1.3), and dropped where this is false.
    pub loops_back: bool,
}

impl Default for DeviceCapabilities {
    /// IP packets of up to 1500 bytes, from own addresses too, and all checksums by the interface.
    fn default() -> DeviceCapabilities {
        DeviceCapabilities {
            medium: Medium::Ip,
            max_transmission_unit: 1500,
            max_burst_size: None,
            checksum: ChecksumCapabilities::default(),
            loops_back: true,
        }
    }
}

impl DeviceCapabilities {
    /// The largest IP packet, in bytes.
    pub fn ip_mtu(&self) -> usize {
        self.max_transmission_unit
    }
}

/// A device.
pub trait Device {
    /// A packet that has arrived.
    type RxToken<'a>: RxToken
    where
        Self: 'a;
    /// Room for a packet to be sent.
    type TxToken<'a>: TxToken
    where
        Self: 'a;

    /// The next packet that has arrived, with room for an answer; none where no packet waits, or there is no room.
    fn receive(&mut self, timestamp: Instant) -> Option<(Self::RxToken<'_>, Self::TxToken<'_>)>;

    /// Room for a packet; none where there is none now.
    fn transmit(&mut self, timestamp: Instant) -> Option<Self::TxToken<'_>>;

    /// What the device can do.
    fn capabilities(&self) -> DeviceCapabilities;
}

/// A packet that has arrived.
pub trait RxToken {
    /// Lends the packet.
    fn consume<R, F: FnOnce(&[u8]) -> R>(self, f: F) -> R;

    /// The marks of the packet.
    fn meta(&self) -> PacketMeta {
        PacketMeta::default()
    }
}

/// Room for a packet.
pub trait TxToken {
    /// Lends so many bytes to be written, and sends them.
    fn consume<R, F: FnOnce(&mut [u8]) -> R>(self, len: usize, f: F) -> R;

    /// Sets the marks of the packet.
    fn set_meta(&mut self, _meta: PacketMeta) {}
}

impl<D: Device + ?Sized> Device for &mut D {
    type RxToken<'a>
        = D::RxToken<'a>
    where
        Self: 'a;
    type TxToken<'a>
        = D::TxToken<'a>
    where
        Self: 'a;

    fn receive(&mut self, timestamp: Instant) -> Option<(Self::RxToken<'_>, Self::TxToken<'_>)> {
        (**self).receive(timestamp)
    }

    fn transmit(&mut self, timestamp: Instant) -> Option<Self::TxToken<'_>> {
        (**self).transmit(timestamp)
    }

    fn capabilities(&self) -> DeviceCapabilities {
        (**self).capabilities()
    }
}

/// A device to which each packet that it sends arrives.
#[cfg(feature = "alloc")]
#[derive(Debug)]
pub struct Loopback {
    packets: VecDeque<Vec<u8>>,
    medium: Medium,
}

#[cfg(feature = "alloc")]
impl Loopback {
    /// A device on which no packet is under way.
    pub fn new(medium: Medium) -> Loopback {
        Loopback { packets: VecDeque::new(), medium }
    }
}

#[cfg(feature = "alloc")]
impl Device for Loopback {
    type RxToken<'a> = LoopbackRx;
    type TxToken<'a> = LoopbackTx<'a>;

    fn receive(&mut self, _: Instant) -> Option<(LoopbackRx, LoopbackTx<'_>)> {
        let packet = self.packets.pop_front()?;
        Some((LoopbackRx(packet), LoopbackTx(&mut self.packets)))
    }

    fn transmit(&mut self, _: Instant) -> Option<LoopbackTx<'_>> {
        Some(LoopbackTx(&mut self.packets))
    }

    fn capabilities(&self) -> DeviceCapabilities {
        DeviceCapabilities {
            medium: self.medium,
            max_transmission_unit: 65535,
            ..DeviceCapabilities::default()
        }
    }
}

/// A packet of a [`Loopback`].
#[cfg(feature = "alloc")]
#[derive(Debug)]
pub struct LoopbackRx(Vec<u8>);

#[cfg(feature = "alloc")]
impl RxToken for LoopbackRx {
    fn consume<R, F: FnOnce(&[u8]) -> R>(self, f: F) -> R {
        f(&self.0)
    }
}

/// Room for a packet of a [`Loopback`].
#[cfg(feature = "alloc")]
#[derive(Debug)]
pub struct LoopbackTx<'a>(&'a mut VecDeque<Vec<u8>>);

#[cfg(feature = "alloc")]
impl TxToken for LoopbackTx<'_> {
    fn consume<R, F: FnOnce(&mut [u8]) -> R>(self, len: usize, f: F) -> R {
        let mut packet = alloc::vec![0; len];
        let result = f(&mut packet);
        self.0.push_back(packet);
        result
    }
}
