// Made from crates/sock_tcp/src/acked.rt by rust/translate: change it there.
//! How much an acknowledgement covers (RFC 9293, section 3.10.7.4).

use crate::proved::control_wire::{TcpControl, TcpSeqNumber};
use crate::proved::sock_core::seq::not_after;
use crate::proved::sock_tcp::control_block::ControlBlock;
use crate::proved::sock_tcp::state::State;

/// How much an acknowledgement covers.
#[derive(Clone, Copy)]
pub struct Acked {
    /// How many bytes of the transmit queue.
    pub len: usize,
    /// Whether the own FIN is among it.
    pub fin: bool,
    /// Whether it is all that was sent.
    pub all: bool,
}

const NOTHING: Acked = Acked { len: 0, fin: false, all: false };

impl<'a> ControlBlock<'a> {
    // 1 where a SYN of our own is unacknowledged.
    fn syn_place(&self) -> usize {
        match self.state {
            State::SynSent | State::SynReceived => 1,
            _ => 0,
        }
    }

    pub(crate) fn acked(&self, control: TcpControl, ack: Option<TcpSeqNumber>) -> Acked {
        let ack = match (control, ack) {
            (TcpControl::Rst, _) | (_, None) => return NOTHING,
            (_, Some(ack)) => ack,
        };
        let count = ack.since(self.local_seq_no).saturating_sub(self.syn_place());
        let fin = self.fin_place() == 1 && count == self.tx_buffer.len() + 1;
        Acked { len: if fin { count - 1 } else { count }, fin, all: not_after(self.remote_last_seq, ack) }
    }

    // What it acknowledges where the verdict is known: no more bytes than are there.
    pub(crate) fn acked_by_passing(&self, control: TcpControl, ack: Option<TcpSeqNumber>) -> Acked {
        self.local_seq_no.in_range(); // for its contract
        match ack {
            None => self.acked(control, None),
            Some(number) => {
                number.in_range(); // for its contract
                self.acked(control, Some(number))
            }
        }
    }
}
