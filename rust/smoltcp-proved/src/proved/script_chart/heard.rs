// Made from crates/script_chart/src/heard.rt by rust/translate: change it there.
//! What one side of a connection saw: the segments that were sent, and those that it heard.
use crate::proved::control_wire::TcpControl;
use crate::proved::script_chart::history::Step;
use crate::proved::script_chart::marks::length;
use crate::proved::script_chart::numbers::Numbers;
use crate::proved::sock_pair::{Segment, Side};

/// What happened, as one side sees it.
#[derive(Clone, Copy)]
pub(crate) struct Heard<'h> {
    pub(crate) segments: &'h [Segment],
    pub(crate) side: Side,
    // The number of the side's SYN.
    pub(crate) first: u32,
    // How far the other side's windows are shifted.
    pub(crate) shift: u8,
}

// How far the windows that a side hears of are shifted: by the other's scale, where both sides have one (RFC 7323,
// section 2.2).
fn shift(segments: &[Segment], side: Side) -> u8 {
    match (scale(segments, side), scale(segments, side.other())) {
        (Some(_), Some(scale)) => scale.min(14),
        _ => 0,
    }
}

// The window scale of a side's SYN.
fn scale(segments: &[Segment], side: Side) -> Option<u8> {
    for segment in segments {
        if segment.from == side && segment.header.repr.control == TcpControl::Syn {
            return segment.header.repr.window_scale;
        }
    }
    None
}

// Whether the segment of this index is an RST of this side.
pub(crate) fn is_reset(segments: &[Segment], index: Option<usize>, side: Side) -> bool {
    let Some(index) = index else {
        return false;
    };
    match segments.get(index) {
        Some(segment) => segment.from == side && segment.header.repr.control == TcpControl::Rst,
        None => false,
    }
}

impl<'h> Heard<'h> {
    // These segments, as this side sees them.
    pub(crate) fn of(segments: &'h [Segment], side: Side) -> Heard<'h> {
        Heard {
            segments,
            side,
            first: Numbers::relative(segments).first(side).unwrap_or(0),
            shift: shift(segments, side),
        }
    }

    // How many numbers behind the side's SYN this one is.
    pub(crate) fn offset(&self, number: u32) -> u64 {
        u64::from(number.wrapping_sub(self.first))
    }

    // The segment that a step delivered to this side, with its acknowledgement. A reset opens and shuts no window.
    pub(crate) fn heard(&self, step: &Step<'_>) -> Option<(&Segment, u64)> {
        let Some(index) = step.delivered() else {
            return None;
        };
        let Some(segment) = self.segments.get(index) else {
            return None;
        };
        let Some(ack) = segment.header.repr.ack_number else {
            return None;
        };
        if segment.from == self.side || segment.header.repr.control == TcpControl::Rst {
            return None;
        }
        Some((segment, self.offset(ack.0)))
    }

    // The moment of such a step, beside what it delivered.
    pub(crate) fn arrival(&self, step: &Step<'_>) -> Option<(u64, &Segment, u64)> {
        match (step.millis(), self.heard(step)) {
            (Some(millis), Some((segment, ack))) => Some((millis, segment, ack)),
            _ => None,
        }
    }

    // The window of such a segment, in bytes.
    pub(crate) fn window(&self, segment: &Segment) -> u64 {
        let window = u64::from(segment.header.repr.window_len);
        match segment.header.repr.control {
            TcpControl::Syn => window,
            _ => window.saturating_mul(1u64 << u32::from(self.shift.min(14))),
        }
    }

    pub(crate) fn highest_sent(&self) -> u64 {
        let mut highest = 0;
        for segment in self.segments {
            if segment.from == self.side && length(segment) > 0 {
                let end = segment.header.repr.seq_number.0.wrapping_add(length(segment));
                highest = highest.max(self.offset(end));
            }
        }
        highest
    }

    pub(crate) fn highest_edge(&self, steps: &[Step<'_>]) -> u64 {
        let mut highest = 0;
        for step in steps {
            if let Some((segment, ack)) = self.heard(step) {
                highest = highest.max(ack.saturating_add(self.window(segment)));
            }
        }
        highest
    }
}
