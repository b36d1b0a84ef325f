// Made from crates/sock_tcp/src/verdict.rt by rust/translate: change it there.
//! What a segment's acknowledgement says (RFC 9293, section 3.10.7; RFC 5961, section 5.2).

use crate::proved::control_wire::{TcpControl, TcpSeqNumber};
use crate::proved::sock_core::seq::before;
use crate::proved::sock_tcp::control_block::ControlBlock;
use crate::proved::sock_tcp::state::State;

/// What is done with a segment by its acknowledgement.
#[derive(Clone, Copy, PartialEq, Eq)]
pub enum Verdict {
    Drop,
    Pass,
    /// It calls for an RST.
    Reset,
    /// It calls for a challenge ACK.
    Challenge,
}

impl<'a> ControlBlock<'a> {
    // The first row that fits.
    #[inline(always)]
    pub(crate) fn verdict(&self, control: TcpControl, ack: Option<TcpSeqNumber>) -> Verdict {
        let next = self.local_seq_no.plus(1);
        match (self.state, control, ack) {
            (State::SynSent, TcpControl::Rst, Some(ack)) if ack == next => Verdict::Pass,
            (State::SynSent, TcpControl::Rst, _) => Verdict::Drop,
            (_, TcpControl::Rst, _) => Verdict::Pass,
            (State::Listen, _, None) => Verdict::Pass,
            (State::Listen, _, Some(ack)) => self.open_verdict(ack),
            (State::SynSent, TcpControl::Syn, Some(ack)) if ack != next => Verdict::Reset,
            (State::SynSent, TcpControl::Syn, _) => Verdict::Pass,
            (State::SynSent, TcpControl::None, Some(ack)) if ack != next => Verdict::Reset,
            (State::SynSent, _, _) => Verdict::Drop,
            (_, _, None) => Verdict::Drop,
            (State::SynReceived, _, Some(ack)) if ack != next => Verdict::Reset,
            (State::SynReceived, _, Some(_)) => Verdict::Pass,
            (_, _, Some(ack)) => self.open_verdict(ack),
        }
    }

    // 1 where a FIN of our own stands behind the transmit queue.
    pub(crate) fn fin_place(&self) -> usize {
        match self.state {
            State::FinWait1 | State::Closing | State::LastAck => 1,
            _ => 0,
        }
    }

    // The verdict in LISTEN, and in a state whose SYN is acknowledged.
    fn open_verdict(&self, ack: TcpSeqNumber) -> Verdict {
        if before(ack, self.local_seq_no) {
            Verdict::Drop
        } else if before(self.local_seq_no.plus(self.tx_buffer.len() + self.fin_place()), ack) {
            Verdict::Challenge
        } else {
            Verdict::Pass
        }
    }
}
