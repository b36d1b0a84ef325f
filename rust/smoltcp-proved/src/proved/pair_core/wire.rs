// Made from crates/pair_core/src/wire.rt by rust/translate: change it there.
//! What goes between the two sides: the segments that a dispatch emits, and their delivery.

use crate::kit::Vec;
use crate::kit::alloc::Global;
use crate::proved::control_wire::TcpControl;
use crate::proved::pair_core::capture::Sent;
use crate::proved::pair_core::host::Host;
use crate::proved::pair_core::moment::Moment;
use crate::proved::pair_core::outcome::{Outcome, PairError};
use crate::proved::pair_core::segment::{Header, Segment};
use crate::proved::pair_core::side::Side;
use crate::proved::sock_tcp::{Reply, Socket, TsvalSource};

// By how much a count of a segment's emitter may grow at most while the segment is young.
const AGE_LIMIT: u64 = 0x2000_0000;

/// How many bytes left a side's transmit queue, and joined its receive queue.
#[derive(Clone, Copy)]
pub(crate) struct Counts {
    pub(crate) released: u64,
    pub(crate) taken: u64,
}

/// Whether a segment is too old to be delivered: since it went out, one of its emitter's counts grew by 2^29 or more.
/// No count falls.
pub fn too_old(released_at: u64, released_now: u64, taken_at: u64, taken_now: u64) -> bool {
    released_now.saturating_sub(released_at) >= AGE_LIMIT || taken_now.saturating_sub(taken_at) >= AGE_LIMIT
}

// What came of a dispatch, whose segment is stored where there is one; there is room for it. Of the room for its
// payload it keeps no more than it needs.
fn store(segments: &mut Vec<Segment>, from: Side, sent: Sent, counts: Counts) -> Outcome {
    match sent {
        Sent::Quiet => Outcome::Quiet,
        Sent::Failed => Outcome::EmitFailed,
        Sent::Emitted(header, mut payload) => {
            payload.shrink_to_fit();
            let index = segments.len();
            segments.push_reserved(Segment {
                from,
                header,
                payload,
                released_at: counts.released,
                taken_at: counts.taken,
            });
            Outcome::Emitted(index)
        }
    }
}

// One dispatch of a side. The room is made first.
pub(crate) fn dispatch<G: TsvalSource>(
    alloc: Global,
    host: &mut Host<'_, G>,
    side: Side,
    segments: &mut Vec<Segment>,
    moment: &Moment,
    fail: bool,
) -> Result<Outcome, PairError> {
    if let Err(_) = segments.reserve(1) {
        return Err(PairError::Memory);
    }
    let room = match Vec::with_capacity(alloc, host.payload_at_most(moment)) {
        Err(_) => return Err(PairError::Memory),
        Ok(room) => room,
    };
    let counts = host.counts();
    let sent = host.dispatch(moment, room, fail);
    Ok(store(segments, side, sent, counts))
}

// Stores a reply, where there is one, and answers its index; there is room for it.
fn store_reply(
    alloc: Global,
    segments: &mut Vec<Segment>,
    from: Side,
    reply: Option<Reply>,
    counts: Counts,
) -> Option<usize> {
    match reply {
        None => None,
        Some((ip_repr, repr)) => {
            let index = segments.len();
            let header = Header::of(ip_repr, &repr);
            segments.push_reserved(Segment::of_reply(alloc, from, header, counts.released, counts.taken));
            Some(index)
        }
    }
}

// The RST that answers a refused segment, unless that is an RST itself.
fn refusal(segment: &Segment) -> Option<Reply> {
    segment.in_range(); // for its contract
    segment.fits(); // for its contract
    match segment.header.repr.control {
        TcpControl::Rst => None,
        _ => Some(Socket::rst_reply(&segment.header.ip_repr, &segment.as_repr())),
    }
}

// One delivery to a side. The room is made first.
pub(crate) fn deliver<G: TsvalSource>(
    alloc: Global,
    emitter: Counts,
    host: &mut Host<'_, G>,
    side: Side,
    segments: &mut Vec<Segment>,
    index: usize,
    moment: &Moment,
) -> Result<Outcome, PairError> {
    let segment = &segments[index];
    if too_old(segment.released_at, emitter.released, segment.taken_at, emitter.taken) {
        return Ok(Outcome::TooOld);
    }
    let accepted = host.accepts(moment, segment);
    if !accepted && segment.header.repr.control == TcpControl::Rst {
        return Ok(Outcome::NotAccepted(None));
    }
    if let Err(_) = segments.reserve(1) {
        return Err(PairError::Memory);
    }
    if accepted {
        let reply = host.deliver(moment, &segments[index]);
        Ok(Outcome::Delivered(store_reply(alloc, segments, side, reply, host.counts())))
    } else {
        let reply = refusal(&segments[index]);
        Ok(Outcome::NotAccepted(store_reply(alloc, segments, side, reply, host.counts())))
    }
}
