// Made from crates/sock_tcp/src/queues.rt by rust/translate: change it there.
//! Reading and writing the byte queues (RFC 9293, sections 3.10.2 and 3.10.3).

use crate::proved::net_base::time::Instant;
use crate::proved::sock_tcp::control_block::ControlBlock;
use crate::proved::sock_tcp::error::{RecvError, SendError};
use crate::proved::sock_tcp::state::State;
use crate::proved::sock_tcp::timer::Timer;

impl<'a> ControlBlock<'a> {
    pub(crate) fn may_send(&self) -> bool {
        matches!(self.state, State::Established | State::CloseWait)
    }

    pub(crate) fn can_send(&self) -> bool {
        self.may_send() && !self.tx_buffer.is_full()
    }

    pub(crate) fn can_recv(&self) -> bool {
        !self.rx_buffer.is_empty()
    }

    fn receives(&self) -> bool {
        matches!(self.state, State::Established | State::FinWait1 | State::FinWait2)
    }

    pub(crate) fn may_recv(&self) -> bool {
        self.receives() || self.can_recv()
    }

    // What a call that brought `count` bytes into the queue does beside.
    fn note_queued(&mut self, was_empty: bool, count: usize) {
        if count == 0 {
            return;
        }
        if was_empty {
            self.has_remote_last_ts = false;
        }
        if self.remote_win_len == 0 && self.timer.is_idle() {
            // The call has no context to ask for the time, so the first probe is due at once, as smoltcp's.
            let delay = self.rtte.retransmission_timeout();
            self.timer = Timer::ZeroWindowProbe { expires_at: Instant::ZERO + delay, delay };
        }
    }

    pub(crate) fn send_slice(&mut self, data: &[u8]) -> Result<usize, SendError> {
        if !self.may_send() {
            return Err(SendError::InvalidState);
        }
        let was_empty = self.tx_buffer.is_empty();
        let count = self.tx_buffer.enqueue_slice(data);
        self.note_queued(was_empty, count);
        Ok(count)
    }

    pub(crate) fn send<R, F: FnOnce(&mut [u8]) -> (usize, R)>(&mut self, f: F) -> Result<R, SendError> {
        if !self.may_send() {
            return Err(SendError::InvalidState);
        }
        let was_empty = self.tx_buffer.is_empty();
        let (count, result) = self.tx_buffer.enqueue_lent(f);
        self.note_queued(was_empty, count);
        Ok(result)
    }

    // Whether bytes can be read, and if not, why.
    fn check_recv(&self) -> Result<(), RecvError> {
        if self.may_recv() {
            Ok(())
        } else if self.rx_fin_received {
            Err(RecvError::Finished)
        } else {
            Err(RecvError::InvalidState)
        }
    }

    pub(crate) fn recv_slice(&mut self, data: &mut [u8]) -> Result<usize, RecvError> {
        self.check_recv()?;
        let count = self.rx_buffer.dequeue_slice(data);
        self.remote_seq_no = self.remote_seq_no.plus(count);
        Ok(count)
    }

    pub(crate) fn recv<R, F: FnOnce(&[u8]) -> (usize, R)>(&mut self, f: F) -> Result<R, RecvError> {
        self.check_recv()?;
        let (count, result) = self.rx_buffer.dequeue_shown(f);
        self.remote_seq_no = self.remote_seq_no.plus(count);
        Ok(result)
    }

    pub(crate) fn consume(&mut self, count: usize) -> Result<usize, RecvError> {
        self.check_recv()?;
        let count = self.rx_buffer.consume(count);
        self.remote_seq_no = self.remote_seq_no.plus(count);
        Ok(count)
    }

    pub(crate) fn peek(&self, size: usize) -> Result<&[u8], RecvError> {
        self.check_recv()?;
        Ok(self.rx_buffer.peek(size))
    }

    pub(crate) fn peek_slice(&self, data: &mut [u8]) -> Result<usize, RecvError> {
        self.check_recv()?;
        Ok(self.rx_buffer.peek_slice(data))
    }
}
