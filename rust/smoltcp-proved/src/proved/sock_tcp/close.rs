// Made from crates/sock_tcp/src/close.rt by rust/translate: change it there.
//! Closing a connection (RFC 9293, sections 3.10.4 and 3.10.5).

use crate::proved::sock_tcp::control_block::ControlBlock;
use crate::proved::sock_tcp::ended::{Ended, by_close};
use crate::proved::sock_tcp::rules::Rules;
use crate::proved::sock_tcp::socket::Socket;
use crate::proved::sock_tcp::state::State;

impl<'a> ControlBlock<'a> {
    fn close_now(&mut self) {
        self.state = match self.state {
            State::Listen => State::Closed,
            State::SynSent => State::Closed,
            State::SynReceived => State::FinWait1,
            State::Established => State::FinWait1,
            State::CloseWait => State::LastAck,
            state => state,
        };
    }

    // By the RFCs' rules a close in SYN-RECEIVED waits.
    pub(crate) fn close(&mut self) {
        if self.begins_waiting(self.tx_buffer.is_empty()) {
            self.has_remote_last_ts = false;
        }
        match (self.state, crate::kit::in_force(self.rules)) {
            (State::SynReceived, Rules::Rfc) => self.close_waits = true,
            _ => {
                self.close_waits = false;
                self.close_now();
            }
        }
    }

    // A close that waited, once the state is another.
    #[inline(always)]
    pub(crate) fn close_late(&mut self) {
        match (self.close_waits, self.state) {
            (false, _) | (_, State::SynReceived) => {}
            _ => self.close_now(),
        }
    }

    pub(crate) fn abort(&mut self) {
        self.state = State::Closed;
    }
}

impl<'a, G> Socket<'a, G> {
    /// Closes the transmit half: nothing more can be sent, and a FIN follows what was. Bytes that come can still be
    /// read.
    ///
    /// LISTEN and SYN-SENT go to CLOSED, SYN-RECEIVED and ESTABLISHED to FIN-WAIT-1, CLOSE-WAIT to LAST-ACK; in the
    /// other states nothing changes (RFC 9293, section 3.10.4). By `Rules::Rfc` SYN-RECEIVED stays: the call is done as
    /// soon as the SYN is acknowledged, and the FIN follows it.
    pub fn close(&mut self) {
        self.ended = by_close(self.control_block.state, self.ended);
        self.control_block.close();
    }

    /// Ends the connection at once: the socket is CLOSED. Where it has a peer, the next dispatch sends an RST
    /// (RFC 9293, section 3.10.5).
    pub fn abort(&mut self) {
        if !self.control_block.state.is_closed() {
            self.ended = Some(Ended::Aborted);
        }
        self.control_block.abort();
    }
}
