// Made from crates/sock_tcp/src/recovery.rt by rust/translate: change it there.
//! Loss by the rules of the RFCs: recovery (RFC 6675, RFC 6582) and duplicates (RFC 5681, RFC 5827).

use crate::proved::control_wire::{TcpControl, TcpRepr, TcpSeqNumber};
use crate::proved::net_base::time::Instant;
use crate::proved::sock_core::congestion::{AnyController, Controller};
use crate::proved::sock_core::rtte::RttEstimator;
use crate::proved::sock_core::seq::{before, later};
use crate::proved::sock_tcp::control_block::ControlBlock;
use crate::proved::sock_tcp::round_trips::echo_of;
use crate::proved::sock_tcp::rules::Rules;
use crate::proved::sock_tcp::scoreboard::Scoreboard;
use crate::proved::sock_tcp::state::State;
use crate::proved::sock_tcp::timer::Timer;

/// What goes on of a loss. Smoltcp's rules keep it `Open`.
#[derive(Debug, Clone, Copy)]
pub enum Recovery {
    /// Nothing.
    Open,
    /// A fast retransmission went out, and not all that was sent before it is acknowledged (RFC 6582, section 3.2).
    Fast {
        /// The number behind what was sent before it.
        point: TcpSeqNumber,
        /// The number behind what was sent again since, HighRxt (RFC 6675, section 2).
        high_rxt: TcpSeqNumber,
        /// The number behind all that was sent when SND.UNA moved last, or holes began to go out again.
        resent_at: TcpSeqNumber,
        /// Whether something new was acknowledged since it began.
        acked: bool,
        /// Whether something was sent again behind new bytes that went out since then.
        trailed: bool,
        /// Whether the segment at SND.UNA was lost again, and is still to go out.
        una_lost: bool,
    },
    /// A tail-loss probe went out, and nothing behind what was sent before it is acknowledged (RFC 8985, section 7).
    Probe {
        /// The number of the segment that was the last one.
        start: TcpSeqNumber,
        /// The number behind it.
        end: TcpSeqNumber,
        /// Whether that segment went out again; else new bytes did.
        again: bool,
    },
    /// The retransmission timer was over, and not all that was sent before that is acknowledged.
    Timeout {
        /// The number behind what was sent before it.
        point: TcpSeqNumber,
    },
}

/// What is kept of a socket while a segment is heard.
#[derive(Clone, Copy)]
pub struct Before {
    /// Its state.
    pub state: State,
    /// Its timer.
    pub timer: Timer,
    /// SND.UNA.
    pub una: TcpSeqNumber,
    /// SND.WND.
    pub window: usize,
    /// How many duplicate acknowledgements had come.
    pub duplicates: u8,
    /// What went on of a loss, with a probe left out of which the segment says that it came twice.
    pub recovery: Recovery,
    /// The congestion controller.
    pub controller: AnyController,
    /// Whether the segment is a duplicate acknowledgement, whatever its window.
    pub repeats: bool,
    /// Whether it tells something new by SACK.
    pub telling: bool,
    /// What was told by SACK, with what it tells.
    pub sacked: Scoreboard,
    /// The timestamp that the segment echoes, TSecr.
    pub echo: Option<u32>,
    /// How many bytes came twice, as its first SACK block tells.
    pub twice: usize,
}

// Neither a SYN, an RST nor a FIN.
pub(crate) fn is_bare(control: TcpControl) -> bool {
    matches!(control, TcpControl::None | TcpControl::Psh)
}

pub(crate) fn is_fast(timer: Timer) -> bool {
    matches!(timer, Timer::FastRetransmit)
}

impl Recovery {
    pub(crate) fn is_over(self) -> bool {
        matches!(self, Recovery::Open | Recovery::Probe { .. })
    }

    // Holes go out again.
    fn is_recovering(self) -> bool {
        matches!(self, Recovery::Fast { .. })
    }

    // An acknowledgement of all that was sent before ends it.
    fn gone_on(self, una: TcpSeqNumber) -> Recovery {
        match self {
            Recovery::Open | Recovery::Probe { .. } => self,
            Recovery::Fast { point, .. } | Recovery::Timeout { point } => {
                if before(una, point) {
                    self
                } else {
                    Recovery::Open
                }
            }
        }
    }

    // The number behind all that was sent, where SND.NXT is this one.
    pub(crate) fn highest(self, next: TcpSeqNumber) -> TcpSeqNumber {
        match self {
            Recovery::Open | Recovery::Probe { .. } => next,
            Recovery::Fast { point, .. } | Recovery::Timeout { point } => later(next, point),
        }
    }

    // Something new was acknowledged since a fast retransmission went out.
    pub(crate) fn is_acked(self) -> bool {
        match self {
            Recovery::Fast { acked, .. } => acked,
            _ => false,
        }
    }

    fn is_timed_out(self) -> bool {
        matches!(self, Recovery::Timeout { .. })
    }

    // The retransmission timer is over, with SND.NXT there.
    #[inline(always)]
    pub(crate) fn timed_out(self, rules: Rules, next: TcpSeqNumber) -> Recovery {
        match rules {
            Rules::Smoltcp => self,
            Rules::Rfc => Recovery::Timeout { point: self.highest(next) },
        }
    }
}

impl Before {
    // SND.UNA has moved.
    pub(crate) fn is_news(&self, after: &ControlBlock<'_>) -> bool {
        self.una != after.local_seq_no
    }

    // None, though smoltcp's rules count it or begin the count anew: of a peer that tells by SACK one that tells
    // nothing new, of another one a larger window.
    fn is_void(&self, after: &ControlBlock<'_>) -> bool {
        let grown = self.window < after.remote_win_len;
        self.repeats && (!self.telling && (after.remote_has_sack || grown))
    }

    // A duplicate that smoltcp's rules do not count: it tells something new by SACK.
    fn is_uncounted(&self, after: &ControlBlock<'_>) -> bool {
        let counted = self.repeats && self.window == after.remote_win_len;
        self.telling && (!self.is_news(after) && !counted)
    }

    // Smoltcp's rules call for a fast retransmission.
    pub(crate) fn is_called(&self, after: &ControlBlock<'_>) -> bool {
        is_fast(after.timer) && !is_fast(self.timer)
    }

    // It was counted as a duplicate by smoltcp's rules, and is one.
    fn is_counted(&self, after: &ControlBlock<'_>) -> bool {
        let counted = self.duplicates < after.local_rx_dup_acks && !self.is_void(after);
        self.repeats && (self.window == after.remote_win_len && counted)
    }

    // One duplicate less than the segments that are out, where these are few and all that is queued was sent.
    fn is_early(&self, after: &ControlBlock<'_>) -> bool {
        let out = after.segments_out();
        let duplicates = after.local_rx_dup_acks as usize;
        self.is_counted(after)
            && (after.tx_buffer.len() <= after.flight() && (out < 4 && duplicates + 1 == out))
    }

    // The third duplicate, or an earlier one that suffices.
    fn tells_loss(&self, after: &ControlBlock<'_>) -> bool {
        let third = self.is_uncounted(after) && self.duplicates == 2;
        self.is_called(after) && !self.is_void(after)
            || (third || (self.is_early(after) || (self.is_probe_told(after) || self.is_told_lost(after))))
    }

    // Of new bytes, but not of all that was sent before a fast retransmission.
    pub(crate) fn is_partial(&self, after: &ControlBlock<'_>) -> bool {
        match self.recovery {
            Recovery::Fast { point, .. } => self.is_news(after) && before(after.local_seq_no, point),
            _ => false,
        }
    }

    // Duplicates begin a recovery, where none goes on, and the loss is not waited for.
    fn begins(&self, after: &ControlBlock<'_>) -> bool {
        after.may_resend() && (self.tells_loss(after) && (self.recovery.is_over() && !self.is_waited(after)))
    }

    // A hole goes out again, or the segment at SND.UNA.
    fn resends(&self, after: &ControlBlock<'_>) -> bool {
        self.begins(after) || after.may_resend() && (self.shows_hole(after) || self.lets_out(after))
    }

    // The dispatch that sends it tells the controller of a loss: one begins, or that was not told yet.
    pub(crate) fn tells_controller(&self, after: &ControlBlock<'_>) -> bool {
        self.begins(after) || is_fast(self.timer) && self.resends(after)
    }

    // In a recovery that goes on, of which the controller was told, what goes out again is marked at once.
    fn marks(&self, after: &ControlBlock<'_>) -> bool {
        self.recovery.is_recovering()
            && (!is_fast(self.timer)
                && (after.may_resend() && (self.shows_hole(after) || self.lets_out(after))))
    }

    pub(crate) fn recovery_after(&self, after: &ControlBlock<'_>) -> Recovery {
        if !after.state.carries_data() {
            return Recovery::Open;
        }
        if self.begins(after) {
            return Recovery::Fast {
                point: after.remote_last_seq,
                high_rxt: after.local_seq_no,
                resent_at: after.remote_last_seq,
                acked: false,
                trailed: false,
                una_lost: false,
            };
        }
        let recovery = self.again(after).spared(self.is_undone(after));
        recovery.gone_on(after.local_seq_no)
    }

    pub(crate) fn duplicates_after(&self, after: &ControlBlock<'_>) -> u8 {
        if self.is_void(after) {
            self.duplicates
        } else if self.is_uncounted(after) {
            self.duplicates.saturating_add(1)
        } else {
            after.local_rx_dup_acks
        }
    }

    // Bytes begin to go out.
    fn is_opened(&self, after: &ControlBlock<'_>) -> bool {
        self.state.is_opening() && !after.state.is_opening()
    }

    // The controller as it was, with the window that came.
    pub(crate) fn controller_before(&self, after: &ControlBlock<'_>) -> AnyController {
        let mut controller = self.controller;
        controller.set_remote_window(after.remote_win_len);
        controller
    }

    // How many bytes a congestion window of this size grows by: none where the application holds back what goes out,
    // and not the window, of which less than half was queued.
    fn bytes_counted(&self, after: &ControlBlock<'_>, window: usize) -> usize {
        let count = after.local_seq_no.since(self.una);
        let queued = after.tx_buffer.len() + count;
        if 2 * queued < window && (self.recovery.is_over() && !self.recovery.is_repaired(after.local_seq_no))
        {
            0
        } else {
            count
        }
    }

    // The controller is told of the bytes that are acknowledged, or that the connection is open.
    fn told_of_bytes(&self, after: &ControlBlock<'_>, now: Instant) -> AnyController {
        if self.is_opened(after) && !after.rtte.is_backed_off() {
            let mut controller = after.congestion_controller;
            controller.open(after.remote_mss);
            return controller;
        }
        if self.is_news(after) && self.state.carries_data() {
            let mut controller = self.told_repaired(after, now);
            let count = self.bytes_counted(after, controller.window());
            controller.on_bytes_acked(now, count, self.recovery.is_timed_out(), &after.rtte);
            return controller;
        }
        after.congestion_controller
    }

    // What the congestion controller is told.
    pub(crate) fn controller_after(&self, after: &ControlBlock<'_>, now: Instant) -> AnyController {
        if self.is_partial(after) {
            let mut controller = self.controller_before(after);
            controller.on_partial_ack(now, after.local_seq_no.since(self.una));
            return controller;
        }
        if self.lets_out(after) || self.is_void(after) {
            return self.controller_before(after);
        }
        if self.is_uncounted(after) {
            let mut controller = after.congestion_controller;
            controller.on_dup_ack(now, after.remote_mss, after.flight());
            return controller;
        }
        self.told_of_bytes(after, now)
    }

    fn estimator_after(&self, after: &ControlBlock<'_>) -> RttEstimator {
        let mut rtte = after.rtte;
        if self.is_opened(after) {
            rtte.begin_anew();
        } else if self.marks(after) {
            rtte.on_retransmit();
        }
        rtte
    }
}

impl<'a> ControlBlock<'a> {
    // Whether it is a duplicate acknowledgement, whatever its window.
    fn repeats(&self, repr: &TcpRepr<'_>) -> bool {
        match repr.ack_number {
            None => false,
            Some(ack) => is_bare(repr.control) && self.is_duplicate(ack, repr.payload.len(), false),
        }
    }

    fn segments_out(&self) -> usize {
        self.flight().div_ceil(self.remote_mss.max(1))
    }

    // There are bytes to send again.
    pub(crate) fn may_resend(&self) -> bool {
        self.state.carries_data() && !self.tx_buffer.is_empty()
    }

    // What is kept of the socket while this segment is heard.
    pub(crate) fn before(&self, repr: &TcpRepr<'_>) -> Before {
        let telling = self.is_telling(repr);
        Before {
            state: self.state,
            timer: self.timer,
            una: self.local_seq_no,
            window: self.remote_win_len,
            duplicates: self.local_rx_dup_acks,
            recovery: self.recovery_heard(repr),
            controller: self.congestion_controller,
            repeats: self.repeats(repr),
            telling,
            sacked: self.sacked_by(telling, repr),
            echo: echo_of(repr.timestamp),
            twice: self.told_twice(repr),
        }
    }

    // What is done of loss, once a segment was heard.
    pub(crate) fn recover(&mut self, before: &Before, now: Instant) {
        self.take_echo(before.is_news(self), before.echo, now);
        let timer = before.timer_after(self, now);
        let rtte = before.estimator_after(self);
        let duplicates = before.duplicates_after(self);
        let controller = before.controller_told(self, now);
        let recovery = before.recovery_after(self);
        let sacked = before.sacked_after(self);
        let largest = before.largest_after(self);
        let undone = before.is_undone(self);
        let marked = (self.pending_fast_retransmit || before.marks(self)) && !undone;
        let undo = before.undo_after(self);
        let reordering = before.reordering_after(self);
        self.timer = timer;
        self.rtte = rtte;
        self.local_rx_dup_acks = duplicates;
        self.pending_fast_retransmit = marked;
        self.congestion_controller = controller;
        self.recovery.set(recovery);
        self.sacked.set(sacked);
        self.largest_window = largest;
        self.undo.set(undo);
        self.reordering = reordering;
    }
}
