//! A device that tells a function of each packet that passes.
use super::{Device, DeviceCapabilities, Medium, PacketMeta, RxToken, TxToken};
use crate::proved::ip_wire::ChecksumCapabilities;
use crate::proved::net_base::Instant;
use crate::proved::segment_wire::packet::carried;
use core::fmt;

/// Which way a packet goes.
#[derive(Debug, Clone, Copy, PartialEq, Eq)]
pub enum TracerDirection {
    /// It arrives.
    RX,
    /// It is sent.
    TX,
}

/// A packet that passes.
#[derive(Debug, Clone, Copy)]
pub struct TracerPacket<'a> {
    /// Its bytes.
    pub buffer: &'a [u8],
    /// What the device carries.
    pub medium: Medium,
    /// Which way it goes.
    pub direction: TracerDirection,
}

/// The direction, the addresses, the protocol and the length of the payload.
impl fmt::Display for TracerPacket<'_> {
    fn fmt(&self, f: &mut fmt::Formatter<'_>) -> fmt::Result {
        let arrow = if self.direction == TracerDirection::RX { "<-" } else { "->" };
        match carried(self.buffer, &ChecksumCapabilities::ignored()) {
            Some((ip, payload)) => {
                let (src, dst) = (ip.src_addr(), ip.dst_addr());
                let (protocol, len) = (u8::from(ip.next_header()), payload.len());
                write!(f, "{arrow} {:?} src={src} dst={dst} protocol={protocol} len={len}", ip.version())
            }
            None => write!(f, "{arrow} (no IP packet, {} bytes)", self.buffer.len()),
        }
    }
}

type Writer = fn(Instant, TracerPacket<'_>);

/// A device around another, which tells a function of what passes.
pub struct Tracer<D: Device> {
    inner: D,
    writer: Writer,
}

impl<D: Device + fmt::Debug> fmt::Debug for Tracer<D> {
    fn fmt(&self, f: &mut fmt::Formatter<'_>) -> fmt::Result {
        f.debug_struct("Tracer").field("inner", &self.inner).finish_non_exhaustive()
    }
}

impl<D: Device> Tracer<D> {
    /// `writer` is called before a packet that has arrived is heard, and once one is written.
    pub fn new(inner: D, writer: fn(timestamp: Instant, packet: TracerPacket<'_>)) -> Tracer<D> {
        Tracer { inner, writer }
    }

    /// The device inside.
    pub fn get_ref(&self) -> &D {
        &self.inner
    }

    /// The device inside, for writing.
    pub fn get_mut(&mut self) -> &mut D {
        &mut self.inner
    }

    /// The device inside, alone.
    pub fn into_inner(self) -> D {
        self.inner
    }
}

impl<D: Device> Device for Tracer<D> {
    type RxToken<'a>
        = TracerToken<D::RxToken<'a>>
    where
        Self: 'a;
    type TxToken<'a>
        = TracerToken<D::TxToken<'a>>
    where
        Self: 'a;

    fn receive(&mut self, timestamp: Instant) -> Option<(Self::RxToken<'_>, Self::TxToken<'_>)> {
        let (writer, medium) = (self.writer, self.capabilities().medium);
        let (rx, tx) = self.inner.receive(timestamp)?;
        let around = (writer, medium, timestamp);
        Some((TracerToken { token: rx, around }, TracerToken { token: tx, around }))
    }

    fn transmit(&mut self, timestamp: Instant) -> Option<Self::TxToken<'_>> {
        let (writer, medium) = (self.writer, self.capabilities().medium);
        let token = self.inner.transmit(timestamp)?;
        Some(TracerToken { token, around: (writer, medium, timestamp) })
    }

    fn capabilities(&self) -> DeviceCapabilities {
        self.inner.capabilities()
    }
}

/// A packet of a [`Tracer`], or room for one.
#[derive(Debug)]
pub struct TracerToken<T> {
    token: T,
    around: (Writer, Medium, Instant),
}

impl<T> TracerToken<T> {
    fn tell(
        (writer, medium, timestamp): (Writer, Medium, Instant),
        direction: TracerDirection,
        buffer: &[u8],
    ) {
        writer(timestamp, TracerPacket { buffer, medium, direction });
    }
}

impl<T: RxToken> RxToken for TracerToken<T> {
    fn consume<R, F: FnOnce(&[u8]) -> R>(self, f: F) -> R {
        self.token.consume(|packet| {
            Self::tell(self.around, TracerDirection::RX, packet);
            f(packet)
        })
    }

    fn meta(&self) -> PacketMeta {
        self.token.meta()
    }
}

impl<T: TxToken> TxToken for TracerToken<T> {
    fn consume<R, F: FnOnce(&mut [u8]) -> R>(self, len: usize, f: F) -> R {
        self.token.consume(len, |packet| {
            let result = f(packet);
            Self::tell(self.around, TracerDirection::TX, packet);
            result
        })
    }

    fn set_meta(&mut self, meta: PacketMeta) {
        self.token.set_meta(meta);
    }
}
