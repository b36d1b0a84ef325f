// Made from crates/sock_tcp/src/peer_window.rt by rust/translate: change it there.
//! Which segment tells the peer's window, by the RFCs' rules (RFC 9293, section 3.10.7.4).

use crate::proved::control_wire::{TcpControl, TcpRepr, TcpSeqNumber};
use crate::proved::sock_core::seq::before;
use crate::proved::sock_tcp::control_block::ControlBlock;
use crate::proved::sock_tcp::rules::Rules;
use crate::proved::sock_tcp::state::State;

fn acks_before(ack: Option<TcpSeqNumber>, wl2: TcpSeqNumber) -> bool {
    match ack {
        None => false,
        Some(ack) => before(ack, wl2),
    }
}

// It has bytes or a FIN.
fn brings(repr: &TcpRepr<'_>) -> bool {
    match repr.control {
        TcpControl::None | TcpControl::Psh => !repr.payload.is_empty(),
        TcpControl::Fin => true,
        _ => false,
    }
}

impl<'a> ControlBlock<'a> {
    // The segment is no older than the one that told the window last.
    pub(crate) fn is_newer(&self, repr: &TcpRepr<'_>) -> bool {
        match repr.control {
            TcpControl::Syn => true,
            _ => {
                before(self.snd_wl1, repr.seq_number)
                    || self.snd_wl1 == repr.seq_number && !acks_before(repr.ack_number, self.snd_wl2)
            }
        }
    }

    // Its acknowledgement comes from before SND.UNA, and it brings bytes or a FIN.
    fn is_ignored(&self, repr: &TcpRepr<'_>) -> bool {
        match repr.ack_number {
            None => false,
            Some(ack) => self.is_heeding() && (brings(repr) && self.is_old_ack(ack)),
        }
    }

    pub(crate) fn is_heeding(&self) -> bool {
        !matches!(self.state, State::Closed | State::Listen | State::SynSent | State::SynReceived)
    }

    fn is_old_ack(&self, ack: TcpSeqNumber) -> bool {
        before(ack, self.local_seq_no) && self.local_seq_no.since(ack) <= self.largest_window
    }

    // The acknowledgement that it counts as having.
    pub(crate) fn ack_heeded(&self, repr: &TcpRepr<'_>) -> Option<TcpSeqNumber> {
        if self.is_ignored(repr) { Some(self.local_seq_no.plus(0)) } else { repr.ack_number }
    }

    // The field that tells what is left of the window, up to the same right edge.
    fn field_kept(&self, repr: &TcpRepr<'_>) -> u16 {
        let count = self.acked(repr.control, self.ack_heeded(repr)).len;
        let left = self.remote_win_len.saturating_sub(count);
        (left >> self.remote_win_scale.unwrap_or(0)).min(65535) as u16
    }

    // The segment with the window that it counts as telling.
    #[inline(always)]
    pub(crate) fn windowed<'s>(&self, repr: &TcpRepr<'s>) -> TcpRepr<'s> {
        let mut repr = *repr;
        let ignored = self.is_ignored(&repr);
        if !self.is_newer(&repr) || ignored {
            repr.window_len = self.field_kept(&repr);
        }
        if ignored {
            repr.ack_number = Some(self.local_seq_no.plus(0));
        }
        repr
    }

    // A segment that is heard becomes the one that told the window, unless it is older.
    #[inline(always)]
    pub(crate) fn note_window(&mut self, repr: &TcpRepr<'_>) {
        if let Rules::Rfc = crate::kit::in_force(self.rules) {
            self.note_newer(repr);
        }
    }

    #[inline(never)]
    fn note_newer(&mut self, repr: &TcpRepr<'_>) {
        if !self.is_newer(repr) {
            return;
        }
        self.snd_wl1 = repr.seq_number;
        if let Some(ack) = repr.ack_number {
            self.snd_wl2 = ack;
        }
    }
}
