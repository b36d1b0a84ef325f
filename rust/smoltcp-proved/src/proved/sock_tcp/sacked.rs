// Made from crates/sock_tcp/src/sacked.rt by rust/translate: change it there.
//! What the peer tells by SACK (RFC 2018, section 5), and which hole it lets out (RFC 6675, sections 4 and 5).

use crate::proved::control_wire::{TcpRepr, TcpSeqNumber};
use crate::proved::sock_core::seq::{before, later};
use crate::proved::sock_tcp::control_block::ControlBlock;
use crate::proved::sock_tcp::emission::Emitted;
use crate::proved::sock_tcp::recovery::{Before, Recovery, is_fast};
use crate::proved::sock_tcp::scoreboard::{Hole, NOTHING_TOLD, Scoreboard};

// Where a number stands from SND.UNA on, 0 where it is none behind it.
pub(crate) fn offset_from(number: TcpSeqNumber, una: TcpSeqNumber) -> usize {
    if before(una, number) { number.since(una) } else { 0 }
}

// From where on holes go out again: from SND.UNA on, where the segment there was lost again.
fn hole_from(una_lost: bool, high_rxt: TcpSeqNumber, una: TcpSeqNumber) -> usize {
    if una_lost { 0 } else { offset_from(high_rxt, una) }
}

impl Recovery {
    // The next hole to be sent again, of what was told by SACK, with SND.UNA there.
    pub(crate) fn next_hole(self, sacked: &Scoreboard, una: TcpSeqNumber) -> Option<Hole> {
        match self {
            Recovery::Fast { high_rxt, una_lost, .. } => {
                sacked.hole_behind(hole_from(una_lost, high_rxt, una))
            }
            Recovery::Probe { start, end, .. } => {
                Some(Hole { start: start.since(una) as u32, end: end.since(una) as u32 })
            }
            _ => None,
        }
    }

    // Whether there is a hole that was not sent again in this recovery.
    fn has_hole(self, sacked: &Scoreboard, una: TcpSeqNumber) -> bool {
        match self {
            Recovery::Fast { high_rxt, una_lost, .. } => {
                sacked.hole_behind(hole_from(una_lost, high_rxt, una)).is_some()
            }
            _ => false,
        }
    }

    // Whether the segment at SND.UNA was sent again in this recovery.
    fn is_sent_again(self, una: TcpSeqNumber) -> bool {
        match self {
            Recovery::Fast { high_rxt, .. } => before(una, high_rxt),
            _ => false,
        }
    }

    // Whether a partial acknowledgement shows a hole that was not sent again.
    fn shows_hole(self, sacked: &Scoreboard, una: TcpSeqNumber) -> bool {
        self.has_hole(sacked, una) || sacked.is_blank() || !self.is_sent_again(una)
    }

    // Whether the segment at SND.UNA was sent again, and lost again.
    fn is_lost(self, sacked: &Scoreboard, una: TcpSeqNumber) -> bool {
        match self {
            Recovery::Fast { high_rxt, resent_at, una_lost, .. } => {
                !una_lost
                    && (before(una, high_rxt) && offset_from(resent_at, una) < sacked.highest_told() as usize)
            }
            _ => false,
        }
    }

    // SND.UNA has moved, or a segment was lost again, or neither, with SND.UNA and SND.NXT there.
    fn again(self, news: bool, lost: bool, una: TcpSeqNumber, next: TcpSeqNumber) -> Recovery {
        match (news, lost, self) {
            (true, _, Recovery::Fast { point, high_rxt, .. }) => Recovery::Fast {
                point,
                high_rxt,
                resent_at: later(next, point),
                acked: true,
                trailed: false,
                una_lost: false,
            },
            (false, true, Recovery::Fast { point, high_rxt, acked, trailed, .. }) => Recovery::Fast {
                point,
                high_rxt: if trailed { high_rxt } else { una },
                resent_at: later(next, point),
                acked,
                trailed: false,
                una_lost: true,
            },
            (true, _, Recovery::Probe { end, .. }) if before(end, una) => Recovery::Open,
            _ => self,
        }
    }

    // A segment went out, with SND.NXT there: one that begins before that was sent again. What is told next is measured
    // from now on, where it was lost again; else it trails new bytes, where some went out since.
    pub(crate) fn resent(self, next: TcpSeqNumber, emitted: &Emitted) -> Recovery {
        match self {
            Recovery::Fast { point, high_rxt, resent_at, acked, trailed, una_lost }
                if before(emitted.seq_number, next) && emitted.len != 0 =>
            {
                Recovery::Fast {
                    point,
                    high_rxt: later(high_rxt, emitted.end),
                    resent_at: if una_lost { later(next, point) } else { resent_at },
                    acked,
                    trailed: !una_lost && (trailed || next != resent_at),
                    una_lost: false,
                }
            }
            _ => self,
        }
    }
}

impl Before {
    // What the peer told by SACK, from SND.UNA on.
    pub(crate) fn sacked_after(&self, after: &ControlBlock<'_>) -> Scoreboard {
        if after.state.carries_data() {
            self.sacked.moved(after.local_seq_no.since(self.una))
        } else {
            NOTHING_TOLD
        }
    }

    // It tells something new, and acknowledges nothing.
    pub(crate) fn only_tells(&self, after: &ControlBlock<'_>) -> bool {
        self.telling && !self.is_news(after)
    }

    // The segment at SND.UNA was sent again, and lost again.
    fn is_lost_again(&self, after: &ControlBlock<'_>) -> bool {
        if !self.only_tells(after) {
            return false;
        }
        let sacked = self.sacked_after(after);
        self.recovery.is_lost(&sacked, after.local_seq_no)
    }

    // The recovery as what is told next is measured, and from where holes go out again.
    pub(crate) fn again(&self, after: &ControlBlock<'_>) -> Recovery {
        self.recovery.again(
            self.is_news(after),
            self.is_lost_again(after),
            after.local_seq_no,
            after.remote_last_seq,
        )
    }

    // A segment is still to go out again.
    fn is_marked(&self, after: &ControlBlock<'_>) -> bool {
        is_fast(self.timer) || after.pending_fast_retransmit
    }

    // What is told anew, and acknowledges nothing, lets out the next hole, unless one is still to go out.
    pub(crate) fn lets_out(&self, after: &ControlBlock<'_>) -> bool {
        if !self.only_tells(after) || self.is_marked(after) {
            return false;
        }
        let sacked = self.sacked_after(after);
        self.again(after).has_hole(&sacked, after.local_seq_no)
            && (self.is_lost_again(after) || self.has_room(after))
    }

    // A partial acknowledgement shows a hole that was not sent again.
    pub(crate) fn shows_hole(&self, after: &ControlBlock<'_>) -> bool {
        if !self.is_partial(after) {
            return false;
        }
        let sacked = self.sacked_after(after);
        self.again(after).shows_hole(&sacked, after.local_seq_no)
    }
}

impl<'a> ControlBlock<'a> {
    // How many bytes behind SND.UNA were sent.
    pub(crate) fn sent(&self) -> usize {
        self.recovery.get().highest(self.remote_last_seq).since(self.local_seq_no)
    }

    // How many of them the peer may have.
    fn tellable(&self) -> usize {
        self.sent().min(self.tx_buffer.len() + 1)
    }

    // Whether the segment tells something new by SACK: the peer said that it tells, and it lies in the window.
    pub(crate) fn is_telling(&self, repr: &TcpRepr<'_>) -> bool {
        let news = self.sacked.get().any_news(self.tellable(), self.local_seq_no, &repr.sack_ranges);
        news && (self.remote_has_sack && self.honored_window().is_inside(repr.seq_number, repr.payload.len()))
    }

    // What was told by SACK, with what the segment tells.
    pub(crate) fn sacked_by(&self, telling: bool, repr: &TcpRepr<'_>) -> Scoreboard {
        if telling {
            self.sacked.get().all_told(self.tellable(), self.local_seq_no, &repr.sack_ranges)
        } else {
            self.sacked.get()
        }
    }
}
