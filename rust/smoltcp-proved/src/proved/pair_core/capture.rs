// Made from crates/pair_core/src/capture.rt by rust/translate: change it there.
//! The context of one dispatch, which keeps what is emitted.

use crate::kit::Vec;
use crate::proved::control_wire::TcpRepr;
use crate::proved::ip_wire::{ChecksumCapabilities, IpAddress, IpRepr, Ipv4Address, Ipv6Address};
use crate::proved::net_base::time::Instant;
use crate::proved::pair_core::moment::Moment;
use crate::proved::pair_core::segment::Header;
use crate::proved::sock_core::Context;

/// A moment, and room for what is emitted at it.
pub(crate) struct Capture {
    pub(crate) moment: Moment,
    pub(crate) header: Option<Header>,
    pub(crate) payload: Vec<u8>,
}

impl Context for Capture {
    fn now(&self) -> Instant {
        self.moment.now()
    }

    fn has_ip_addr(&self, addr: IpAddress) -> bool {
        self.moment.has_ip_addr(addr)
    }

    fn get_source_address(&self, dst: &IpAddress) -> Option<IpAddress> {
        self.moment.get_source_address(dst)
    }

    fn get_source_address_ipv4(&self, dst: &Ipv4Address) -> Option<Ipv4Address> {
        self.moment.get_source_address_ipv4(dst)
    }

    fn get_source_address_ipv6(&self, dst: &Ipv6Address) -> Ipv6Address {
        self.moment.get_source_address_ipv6(dst)
    }

    fn is_broadcast(&self, addr: &IpAddress) -> bool {
        self.moment.is_broadcast(addr)
    }

    fn ip_mtu(&self) -> usize {
        self.moment.ip_mtu()
    }

    fn checksum_caps(&self) -> ChecksumCapabilities {
        self.moment.checksum_caps()
    }

    fn rand_u32(&mut self) -> u32 {
        self.moment.rand_u32()
    }
}

/// The emit of a dispatch failed.
pub(crate) struct EmitFailed;

impl Capture {
    /// Keeps a segment, in the room that was made before.
    pub(crate) fn store(&mut self, ip_repr: IpRepr, repr: TcpRepr<'_>) -> Result<(), EmitFailed> {
        match self.payload.extend_from_slice(repr.payload) {
            Ok(()) => {
                self.header = Some(Header::of(ip_repr, &repr));
                Ok(())
            }
            Err(_) => Err(EmitFailed),
        }
    }

    /// What came of a dispatch whose emit answered so.
    pub(crate) fn into_sent(self, answer: Result<(), EmitFailed>) -> Sent {
        let Capture { moment: _, header, payload } = self;
        match (answer, header) {
            (Err(_), _) => Sent::Failed,
            (Ok(()), None) => Sent::Quiet,
            (Ok(()), Some(header)) => Sent::Emitted(header, payload),
        }
    }
}

/// What a dispatch came to: nothing was emitted, an emit failed, or a segment went out.
pub(crate) enum Sent {
    Quiet,
    Failed,
    Emitted(Header, Vec<u8>),
}
