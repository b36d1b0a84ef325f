// Made from crates/sock_tcp/src/undo.rt by rust/translate: change it there.
//! What undoes a recovery that was for nothing, by the RFCs' rules: segments came late and were not lost, as the echo
//! of a timestamp tells (RFC 3522) or, without timestamps, D-SACKs of all that went out again (RFC 3708).

use crate::proved::control_wire::{TcpRepr, TcpSeqNumber};
use crate::proved::net_base::time::Instant;
use crate::proved::sock_core::congestion::{AnyController, Controller};
use crate::proved::sock_core::seq::before;
use crate::proved::sock_tcp::control_block::ControlBlock;
use crate::proved::sock_tcp::emission::Emitted;
use crate::proved::sock_tcp::recovery::{Before, Recovery};
use crate::proved::sock_tcp::rules::Rules;

/// What is kept of the time before a recovery, until it is known whether that was for nothing. Smoltcp's rules keep
/// nothing.
#[derive(Debug, Clone, Copy)]
pub struct Undo {
    /// The congestion window before it, in bytes; 0 before a timeout, after which the window grows up to that anew.
    pub window: usize,
    /// The threshold before it, in bytes; 0 where there is nothing to undo.
    pub threshold: usize,
    /// The timestamp of what went out again first.
    pub stamp: Option<u32>,
    /// How many bytes went out again of which no D-SACK told that they came twice.
    pub resent: usize,
}

/// There is nothing to undo.
pub const NOTHING_TO_UNDO: Undo = Undo { window: 0, threshold: 0, stamp: None, resent: 0 };

// A segment echoes a timestamp from before this one.
fn is_older(echo: Option<u32>, stamp: Option<u32>) -> bool {
    match (echo, stamp) {
        (Some(echo), Some(stamp)) => before(TcpSeqNumber(echo), TcpSeqNumber(stamp)),
        _ => false,
    }
}

// The timestamp that went out first.
fn first_of(stamp: Option<u32>, next: Option<u32>) -> Option<u32> {
    match stamp {
        None => next,
        Some(_) => stamp,
    }
}

impl Undo {
    fn saved(window: usize, threshold: usize) -> Undo {
        Undo { window, threshold, stamp: None, resent: 0 }
    }

    fn may_undo(self) -> bool {
        self.threshold != 0
    }

    // A recovery begins, before the controller hears of it.
    #[inline(always)]
    pub(crate) fn marked(self, rules: Rules, controller: &AnyController) -> Undo {
        match rules {
            Rules::Smoltcp => self,
            Rules::Rfc => Undo::saved(controller.window(), controller.threshold()),
        }
    }

    // The retransmission timer is over, before the controller hears of it: the first of several counts, and none that
    // ends a recovery.
    pub(crate) fn timed_out(self, rules: Rules, recovery: Recovery, controller: &AnyController) -> Undo {
        match (rules, recovery) {
            (Rules::Smoltcp, _) | (Rules::Rfc, Recovery::Timeout { .. }) => self,
            (Rules::Rfc, Recovery::Fast { .. }) => NOTHING_TO_UNDO,
            (Rules::Rfc, _) => Undo::saved(0, controller.window().max(controller.threshold())),
        }
    }

    fn sent_again(self, emitted: &Emitted) -> Undo {
        Undo {
            window: self.window,
            threshold: self.threshold,
            stamp: first_of(self.stamp, emitted.stamp),
            resent: self.resent.saturating_add(emitted.len),
        }
    }

    // A segment went out in a recovery, with SND.NXT there.
    pub(crate) fn sent(self, recovery: Recovery, next: TcpSeqNumber, emitted: &Emitted) -> Undo {
        match recovery {
            Recovery::Fast { .. } if before(emitted.seq_number, next) && emitted.len != 0 => {
                self.sent_again(emitted)
            }
            Recovery::Timeout { .. } if emitted.len != 0 => self.sent_again(emitted),
            _ => self,
        }
    }

    // So many bytes came twice.
    fn counted(self, twice: usize) -> Undo {
        Undo {
            window: self.window,
            threshold: self.threshold,
            stamp: self.stamp,
            resent: self.resent.saturating_sub(twice),
        }
    }
}

impl Recovery {
    // The first echo of something new tells whether it was for nothing.
    fn is_decided(self) -> bool {
        matches!(self, Recovery::Fast { .. } | Recovery::Timeout { .. })
    }

    // A fast recovery that was for nothing is over.
    pub(crate) fn spared(self, undone: bool) -> Recovery {
        match self {
            Recovery::Fast { .. } if undone => Recovery::Open,
            _ => self,
        }
    }
}

impl Before {
    // The recovery was for nothing, as the echo tells.
    fn is_undone_by_echo(&self, after: &ControlBlock<'_>) -> bool {
        self.is_news(after) && (self.recovery.is_decided() && is_older(self.echo, after.undo.get().stamp))
    }

    // Or D-SACKs of all that went out again, where there are no timestamps.
    fn is_undone_by_blocks(&self, after: &ControlBlock<'_>) -> bool {
        let all = after.undo.get().resent != 0 && after.undo.get().resent <= self.twice;
        self.echo.is_none() && all
    }

    // The recovery was for nothing.
    pub(crate) fn is_undone(&self, after: &ControlBlock<'_>) -> bool {
        after.undo.get().may_undo() && (self.is_undone_by_echo(after) || self.is_undone_by_blocks(after))
    }

    // It was not, as the first echo of something new tells.
    fn is_decided(&self, after: &ControlBlock<'_>) -> bool {
        self.is_news(after) && (self.recovery.is_decided() && self.echo.is_some())
    }

    pub(crate) fn undo_after(&self, after: &ControlBlock<'_>) -> Undo {
        if self.is_undone(after) || self.is_decided(after) {
            NOTHING_TO_UNDO
        } else {
            after.undo.get().counted(self.twice)
        }
    }

    // The controller as it is told of the segment, and that a recovery was for nothing.
    pub(crate) fn controller_told(&self, after: &ControlBlock<'_>, now: Instant) -> AnyController {
        let mut controller = self.controller_after(after, now);
        if self.is_undone(after) {
            controller.undo(after.undo.get().window, after.undo.get().threshold);
        }
        controller
    }
}

// A block of bytes that are acknowledged.
fn twice_in(ack: TcpSeqNumber, block: (u32, u32)) -> usize {
    let (left, right) = (TcpSeqNumber(block.0), TcpSeqNumber(block.1));
    if before(left, right) && !before(ack, right) { right.since(left) } else { 0 }
}

impl<'a> ControlBlock<'a> {
    // How many bytes came twice, as the first block of a segment tells that is taken in this window.
    pub(crate) fn told_twice(&self, repr: &TcpRepr<'_>) -> usize {
        let [first, _, _] = repr.sack_ranges;
        match (repr.ack_number, first) {
            (Some(ack), Some(block))
                if self.remote_has_sack
                    && self.honored_window().is_inside(repr.seq_number, repr.payload.len()) =>
            {
                twice_in(ack, block)
            }
            _ => 0,
        }
    }
}
