// Made from crates/sock_tcp/src/probe_acks.rt by rust/translate: change it there.
//! What the acknowledgement of a tail-loss probe says of a loss (RFC 8985, section 7.4.2).

use crate::proved::control_wire::{TcpControl, TcpRepr, TcpSeqNumber};
use crate::proved::net_base::time::Instant;
use crate::proved::sock_core::congestion::{AnyController, Controller};
use crate::proved::sock_core::seq::before;
use crate::proved::sock_tcp::control_block::ControlBlock;
use crate::proved::sock_tcp::recovery::{Before, Recovery, is_bare};

// A block that ends in the segment which went out again from start to end.
fn is_duplicate_of(start: TcpSeqNumber, end: TcpSeqNumber, block: (u32, u32)) -> bool {
    let (left, right) = (TcpSeqNumber(block.0), TcpSeqNumber(block.1));
    before(left, right) && (before(start, right) && !before(end, right))
}

impl Recovery {
    // A segment that went out again as a probe repaired a loss.
    pub(crate) fn is_repaired(self, una: TcpSeqNumber) -> bool {
        match self {
            Recovery::Probe { end, again, .. } => again && before(end, una),
            _ => false,
        }
    }
}

impl Before {
    // The controller as it was, told of a loss that a probe repaired.
    pub(crate) fn told_repaired(&self, after: &ControlBlock<'_>, now: Instant) -> AnyController {
        let mut controller = self.controller_before(after);
        if self.recovery.is_repaired(after.local_seq_no) {
            let flight = after.remote_last_seq.since(self.una);
            let most = controller.window();
            controller.on_loss(now, flight.min(most));
        }
        controller
    }
}

impl<'a> ControlBlock<'a> {
    // The window that a segment tells, which is no SYN, is the one that is known.
    fn is_same_window(&self, control: TcpControl, field: u16) -> bool {
        let window = match control {
            TcpControl::Syn => field as usize,
            _ => (field as usize) << self.remote_win_scale.unwrap_or(0),
        };
        window == self.remote_win_len
    }

    // The same acknowledgement with the same window, and nothing else.
    fn is_bare_repeat(&self, repr: &TcpRepr<'_>, ack: TcpSeqNumber) -> bool {
        ack == self.local_seq_no
            && (is_bare(repr.control)
                && (repr.payload.is_empty() && self.is_same_window(repr.control, repr.window_len)))
    }

    // The segment that went out again as a probe, from start to end, came twice.
    fn came_twice(&self, repr: &TcpRepr<'_>, start: TcpSeqNumber, end: TcpSeqNumber) -> bool {
        let Some(ack) = repr.ack_number else {
            return false;
        };
        if before(ack, end) {
            return false;
        }
        let window = self.honored_window();
        let [first, _, _] = repr.sack_ranges;
        window.is_inside(repr.seq_number, repr.payload.len())
            && match first {
                None => self.is_bare_repeat(repr, ack),
                Some(block) => is_duplicate_of(start, end, block),
            }
    }

    // What goes on of a loss, as the segment says.
    pub(crate) fn recovery_heard(&self, repr: &TcpRepr<'_>) -> Recovery {
        match self.recovery.get() {
            Recovery::Probe { start, end, again } if again && self.came_twice(repr, start, end) => {
                Recovery::Open
            }
            recovery => recovery,
        }
    }
}
