// Made from crates/script_chart/src/numbers.rt by rust/translate: change it there.
//! Sequence numbers as they are shown.

use crate::proved::control_wire::TcpControl;
use crate::proved::sock_pair::{Segment, Side};

/// The number of each side from which its numbers are counted; none where they are shown as they are.
#[derive(Clone, Copy)]
pub struct Numbers {
    a: Option<u32>,
    b: Option<u32>,
}

impl Numbers {
    /// All numbers as they are.
    pub const ABSOLUTE: Numbers = Numbers { a: None, b: None };

    /// Counted from the SYN of each side, where it sent one.
    pub fn relative(segments: &[Segment]) -> Numbers {
        Numbers { a: first_number(segments, Side::A), b: first_number(segments, Side::B) }
    }

    /// How a number of this side is shown.
    pub fn of(self, side: Side, number: u32) -> u32 {
        match self.first(side) {
            Some(first) => number.wrapping_sub(first),
            None => number,
        }
    }

    /// The number of the side's SYN, where there is one and numbers are counted from it.
    pub fn first(self, side: Side) -> Option<u32> {
        match side {
            Side::A => self.a,
            Side::B => self.b,
        }
    }
}

// The sequence number of the first SYN of a side.
fn first_number(segments: &[Segment], side: Side) -> Option<u32> {
    for segment in segments {
        if segment.from == side && segment.header.repr.control == TcpControl::Syn {
            return Some(segment.header.repr.seq_number.0);
        }
    }
    None
}
