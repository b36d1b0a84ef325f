// Made from crates/pair_core/src/segment.rt by rust/translate: change it there.
//! A stored segment, which owns its payload.

use crate::kit::Vec;
use crate::kit::alloc::Global;
use crate::proved::control_wire::TcpRepr;
use crate::proved::ip_wire::IpRepr;
use crate::proved::pair_core::side::Side;

/// The headers of a segment: all of it but its payload.
#[derive(Debug, Clone, Copy, PartialEq, Eq)]
pub struct Header {
    /// The IP header.
    pub ip_repr: IpRepr,
    /// The TCP header, whose payload is left empty.
    pub repr: TcpRepr<'static>,
}

impl Header {
    pub(crate) fn of(ip_repr: IpRepr, repr: &TcpRepr<'_>) -> Header {
        Header { ip_repr, repr: repr.without_payload() }
    }
}

/// A segment that a side emitted, with the counts of its emitter at that moment.
#[derive(Debug, PartialEq, Eq)]
pub struct Segment {
    /// The side that emitted it.
    pub from: Side,
    /// Its headers.
    pub header: Header,
    /// The bytes that it carries.
    pub payload: Vec<u8>,
    /// How many bytes had left the emitter's transmit queue by acknowledgement.
    pub released_at: u64,
    /// How many bytes had joined the emitter's receive queue.
    pub taken_at: u64,
}

impl Segment {
    /// The form that a socket reads.
    pub fn as_repr(&self) -> TcpRepr<'_> {
        self.header.repr.with_payload(self.payload.as_slice())
    }

    /// Says that it can be written as a packet of at most 65535 bytes and read back.
    pub fn fits(&self) {
        let _header = &self.header;
    }

    // Says that its numbers have 32 bits, and its payload at most 65535 bytes.
    pub(crate) fn in_range(&self) {
        self.fits(); // for its contract
        self.header.repr.seq_number.in_range(); // for its contract
        match self.header.repr.ack_number {
            None => {}
            Some(ack) => ack.in_range(),
        }
    }

    /// A reply, which has no payload.
    pub(crate) fn of_reply(
        alloc: Global,
        from: Side,
        header: Header,
        released_at: u64,
        taken_at: u64,
    ) -> Segment {
        Segment { from, header, payload: Vec::new(alloc), released_at, taken_at }
    }
}
