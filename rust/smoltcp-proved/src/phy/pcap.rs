//! A device that writes down what passes, as a pcap file (draft-ietf-opsawg-pcap).
use super::{Device, DeviceCapabilities, PacketMeta, RxToken, TxToken};
use crate::proved::net_base::Instant;
use core::cell::RefCell;
use core::fmt;

// Format 2.4, packets of at most 65535 bytes.
const MAGIC: u32 = 0xa1b2_c3d4;
const LONGEST: u32 = 65535;

/// What each packet of a file begins with.
#[derive(Debug, Clone, Copy, PartialEq, Eq, PartialOrd, Ord, Hash)]
#[non_exhaustive]
pub enum PcapLinkType {
    /// An Ethernet header (1).
    Ethernet,
    /// An IPv4 or IPv6 header (101).
    Ip,
    /// A header of IEEE 802.15.4 without its checksum (230).
    Ieee802154WithoutFcs,
    /// Another number.
    Unknown(u32),
}

impl From<PcapLinkType> for u32 {
    fn from(kind: PcapLinkType) -> u32 {
        match kind {
            PcapLinkType::Ethernet => 1,
            PcapLinkType::Ip => 101,
            PcapLinkType::Ieee802154WithoutFcs => 230,
            PcapLinkType::Unknown(number) => number,
        }
    }
}

/// Which packets are written down.
#[derive(Debug, Clone, Copy, PartialEq, Eq)]
pub enum PcapMode {
    /// All.
    Both,
    /// Those that arrive.
    RxOnly,
    /// Those that are sent.
    TxOnly,
}

/// Where a file goes. Its numbers have the byte order of the processor.
pub trait PcapSink {
    /// Writes bytes behind the others.
    fn write(&mut self, data: &[u8]);

    /// Is called behind each packet.
    fn flush(&mut self) {}

    /// Writes a number of 16 bits.
    fn write_u16(&mut self, value: u16) {
        self.write(&value.to_ne_bytes());
    }

    /// Writes a number of 32 bits.
    fn write_u32(&mut self, value: u32) {
        self.write(&value.to_ne_bytes());
    }

    /// Writes what a file begins with.
    fn global_header(&mut self, link_type: PcapLinkType) {
        self.write_u32(MAGIC);
        self.write_u16(2);
        self.write_u16(4);
        self.write_u32(0); // the time zone
        self.write_u32(0); // the precision of moments
        self.write_u32(LONGEST);
        self.write_u32(link_type.into());
    }

    /// Writes what a packet of this length begins with. Panics for one of more than 65535 bytes.
    fn packet_header(&mut self, timestamp: Instant, length: usize) {
        assert!(length <= LONGEST as usize);
        self.write_u32(timestamp.total_micros().div_euclid(1_000_000) as u32);
        self.write_u32(timestamp.total_micros().rem_euclid(1_000_000) as u32);
        self.write_u32(length as u32);
        self.write_u32(length as u32);
    }

    /// Writes a packet, and flushes.
    fn packet(&mut self, timestamp: Instant, packet: &[u8]) {
        self.packet_header(timestamp, packet.len());
        self.write(packet);
        self.flush();
    }
}

/// Panics where the bytes cannot be written.
#[cfg(feature = "std")]
impl<T: std::io::Write> PcapSink for T {
    fn write(&mut self, data: &[u8]) {
        self.write_all(data).expect("cannot write");
    }

    fn flush(&mut self) {
        std::io::Write::flush(self).expect("cannot flush");
    }
}

/// A device around another, which writes down what passes.
pub struct PcapWriter<D: Device, S: PcapSink> {
    lower: D,
    sink: RefCell<S>,
    mode: PcapMode,
}

impl<D: Device + fmt::Debug, S: PcapSink> fmt::Debug for PcapWriter<D, S> {
    fn fmt(&self, f: &mut fmt::Formatter<'_>) -> fmt::Result {
        let fields = &mut f.debug_struct("PcapWriter");
        fields.field("lower", &self.lower).field("mode", &self.mode).finish_non_exhaustive()
    }
}

impl<D: Device, S: PcapSink> PcapWriter<D, S> {
    /// Writes the file's header at once.
    pub fn new(lower: D, mut sink: S, mode: PcapMode) -> PcapWriter<D, S> {
        sink.global_header(PcapLinkType::Ip);
        PcapWriter { lower, sink: RefCell::new(sink), mode }
    }

    /// The device inside.
    pub fn get_ref(&self) -> &D {
        &self.lower
    }

    /// The device inside, for writing.
    pub fn get_mut(&mut self) -> &mut D {
        &mut self.lower
    }
}

impl<D: Device, S: PcapSink> Device for PcapWriter<D, S> {
    type RxToken<'a>
        = PcapRx<'a, D::RxToken<'a>, S>
    where
        Self: 'a;
    type TxToken<'a>
        = PcapTx<'a, D::TxToken<'a>, S>
    where
        Self: 'a;

    fn receive(&mut self, timestamp: Instant) -> Option<(Self::RxToken<'_>, Self::TxToken<'_>)> {
        let (sink, mode) = (&self.sink, self.mode);
        let (rx, tx) = self.lower.receive(timestamp)?;
        Some((PcapRx { token: rx, sink, mode, timestamp }, PcapTx { token: tx, sink, mode, timestamp }))
    }

    fn transmit(&mut self, timestamp: Instant) -> Option<Self::TxToken<'_>> {
        let (sink, mode) = (&self.sink, self.mode);
        let token = self.lower.transmit(timestamp)?;
        Some(PcapTx { token, sink, mode, timestamp })
    }

    fn capabilities(&self) -> DeviceCapabilities {
        self.lower.capabilities()
    }
}

/// A packet of a [`PcapWriter`].
#[derive(Debug)]
pub struct PcapRx<'a, T, S> {
    token: T,
    sink: &'a RefCell<S>,
    mode: PcapMode,
    timestamp: Instant,
}

impl<T: RxToken, S: PcapSink> RxToken for PcapRx<'_, T, S> {
    fn consume<R, F: FnOnce(&[u8]) -> R>(self, f: F) -> R {
        self.token.consume(|packet| {
            if self.mode != PcapMode::TxOnly {
                self.sink.borrow_mut().packet(self.timestamp, packet);
            }
            f(packet)
        })
    }

    fn meta(&self) -> PacketMeta {
        self.token.meta()
    }
}

/// Room for a packet of a [`PcapWriter`].
#[derive(Debug)]
pub struct PcapTx<'a, T, S> {
    token: T,
    sink: &'a RefCell<S>,
    mode: PcapMode,
    timestamp: Instant,
}

impl<T: TxToken, S: PcapSink> TxToken for PcapTx<'_, T, S> {
    fn consume<R, F: FnOnce(&mut [u8]) -> R>(self, len: usize, f: F) -> R {
        self.token.consume(len, |packet| {
            let result = f(packet);
            if self.mode != PcapMode::RxOnly {
                self.sink.borrow_mut().packet(self.timestamp, packet);
            }
            result
        })
    }

    fn set_meta(&mut self, meta: PacketMeta) {
        self.token.set_meta(meta);
    }
}
