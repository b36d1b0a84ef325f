// Made from crates/pair_replay/src/why.rt by rust/translate: change it there.
//! What becomes of a segment that is delivered, and of a dispatch, and why.

use crate::capture::put;
use smoltcp_proved::kit::alloc::Global;
use smoltcp_proved::kit::format;
use smoltcp_proved::kit::io::Write;
use smoltcp_proved::proved::sock_pair::script::{End, NoTimestamps};
use smoltcp_proved::proved::sock_pair::{Event, Pair, Side};
use smoltcp_proved::proved::sock_tcp::{Reason, Row};

/// What the event of a side is about.
#[derive(Debug, Clone, Copy)]
pub enum Why {
    /// To which side a segment is delivered, its index, and in which row of the tables of `process` it falls there.
    Arrives { side: Side, index: usize, row: Row },
    /// Why a side emits in a dispatch, or what it waits for.
    Leaves { side: Side, reason: Reason },
}

/// What an event will deliver or dispatch; none where it does neither.
pub fn why_of(pair: &Pair<'_, NoTimestamps>, event: &Event) -> Option<Why> {
    match event {
        Event::Dispatch { side, moment, .. } => {
            Some(Why::Leaves { side: *side, reason: pair.socket(*side).next(moment) })
        }
        Event::Deliver { index, moment } => {
            let segment = pair.segments().get(*index)?;
            let (side, repr) = (segment.from.other(), segment.as_repr());
            // no segment is longer
            if repr.payload.len() > 65535 {
                return None;
            }
            let row = pair.socket(side).explain(moment, &segment.header.ip_repr, &repr);
            Some(Why::Arrives { side, index: *index, row })
        }
        _ => None,
    }
}

fn name(side: Side) -> &'static str {
    match side {
        Side::A => "a",
        Side::B => "b",
    }
}

/// Writes a line for it, if there is one.
pub fn put_why<W: Write>(alloc: Global, why: Option<Why>, out: &mut W) -> Result<(), End> {
    let line = match why {
        None => return Ok(()),
        Some(Why::Arrives { side, index, row }) => {
            format!(in alloc; "{} {index}: {row}\n", name(side))
        }
        Some(Why::Leaves { side, reason }) => {
            format!(in alloc; "{} dispatch: {reason}\n", name(side))
        }
    };
    match line {
        Ok(line) => put(out, line.as_bytes()),
        Err(_) => Err(End::Memory),
    }
}
