// Made from crates/sock_tcp/src/numbers.rt by rust/translate: change it there.
//! The number of what is sent without bytes, by the RFCs' rules (RFC 9293, sections 3.4 and 3.10.7.4).

use crate::proved::control_wire::{TcpRepr, TcpSeqNumber};
use crate::proved::ip_wire::IpRepr;
use crate::proved::sock_tcp::control_block::ControlBlock;
use crate::proved::sock_tcp::rules::Rules;

impl<'a> ControlBlock<'a> {
    // SND.MAX, and at most one behind the transmit queue.
    fn highest_number(&self) -> TcpSeqNumber {
        let most = self.tx_buffer.len() + 1;
        self.local_seq_no.plus(self.sent().min(most))
    }

    // The number of a segment that has the number `otherwise` else.
    #[inline(always)]
    fn number_out(&self, is_bare: bool, otherwise: TcpSeqNumber) -> TcpSeqNumber {
        match crate::kit::in_force(self.rules) {
            Rules::Rfc if is_bare => self.highest_number(),
            _ => otherwise,
        }
    }

    // What a dispatch emits, where it takes no number.
    #[inline(always)]
    pub(crate) fn number_packet(&self, packet: &mut (IpRepr, TcpRepr<'_>)) {
        let is_bare = packet.1.segment_len() == 0;
        packet.1.seq_number = self.number_out(is_bare, packet.1.seq_number);
    }

    // What answers a segment: an acknowledgement, of a socket that is not closed.
    pub(crate) fn number_reply(&self, reply: TcpRepr<'static>) -> TcpRepr<'static> {
        let is_ack = reply.is_empty() && !self.state.is_closed();
        let mut reply = reply;
        reply.seq_number = self.number_out(is_ack, reply.seq_number);
        reply
    }
}
