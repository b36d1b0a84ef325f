// Made from crates/sock_tcp/src/poll.rt by rust/translate: change it there.
//! When a socket wants its next dispatch.

use crate::proved::net_base::time::Instant;
use crate::proved::sock_core::{Context, PollAt};
use crate::proved::sock_tcp::control_block::ControlBlock;
use crate::proved::sock_tcp::socket::Socket;
use crate::proved::sock_tcp::state::State;
use crate::proved::sock_tcp::timer::{Timer, is_over};

// Whether the poll moment is now or was before.
pub(crate) fn is_reached(poll: PollAt, now: Instant) -> bool {
    match poll {
        PollAt::Now => true,
        PollAt::Time(at) => is_over(at, now),
        PollAt::Ingress => false,
    }
}

// The earlier of two poll moments.
pub(crate) fn earlier(poll: PollAt, other: PollAt) -> PollAt {
    match (poll, other) {
        (PollAt::Now, _) => PollAt::Now,
        (PollAt::Ingress, _) => other,
        (PollAt::Time(_), PollAt::Now) => PollAt::Now,
        (PollAt::Time(_), PollAt::Ingress) => poll,
        (PollAt::Time(at), PollAt::Time(then)) => {
            PollAt::Time(if at.micros <= then.micros { at } else { then })
        }
    }
}

impl<'a> ControlBlock<'a> {
    fn has_work(&self) -> bool {
        self.state.works(self.tuple.is_some(), self.tx_buffer.is_empty(), self.synack_paused)
    }

    fn is_due_by(&self, mss: usize) -> bool {
        self.remote_last_ts().is_none()
            || self.state.is_closed()
            || self.data_due_by(mss)
            || self.window_doubled()
    }

    pub(crate) fn poll_at<C: Context>(&self, cx: &C) -> PollAt {
        let tuple = match &self.tuple {
            None => return PollAt::Ingress,
            Some(tuple) => tuple,
        };
        if self.is_quiet() {
            return self.timer_or(self.timeout_poll());
        }
        self.poll_at_in_full(self.effective_mss(cx, tuple))
    }

    // The poll moment of a socket with a peer, by all that it may wait for, with segments of up to so many bytes. Not
    // inlined, so that the path of a quiet socket has no registers to save; and of the context it takes the one number,
    // which then need not lie in memory.
    #[inline(never)]
    fn poll_at_in_full(&self, mss: usize) -> PollAt {
        if self.is_due_by(mss) {
            return PollAt::Now;
        }
        let timeout = self.timeout_poll();
        match self.held_poll() {
            PollAt::Ingress => self.timer_or(timeout),
            held => earlier(self.timer.poll_at(), earlier(timeout, held)),
        }
    }

    // Whether this is a connection that is open both ways, with nothing queued and nothing to tell. Most sockets that
    // are asked are such, and are spared the questions for the others. Where the answer is no, it says nothing.
    fn is_quiet(&self) -> bool {
        match (self.state, self.remote_last_ts()) {
            (State::Established, Some(_)) => self.tx_buffer.is_empty() && self.has_told_all(),
            _ => false,
        }
    }

    // Whether the peer was told what it is to be told: the last acknowledgement that was sent is for all that came, and
    // a window field that told the free space now would be 0, or less than twice the one that went out with it.
    fn has_told_all(&self) -> bool {
        let told = self.remote_last_win;
        let field = self.space_field();
        self.has_acknowledged() && (field == 0 || field / 2 < told)
    }

    // Whether the last acknowledgement that was sent is for all that came.
    fn has_acknowledged(&self) -> bool {
        match self.remote_last_ack {
            Some(ack) => ack == self.next_ack(),
            None => false,
        }
    }

    // The earlier of what the timer waits for and another moment: that one, in a socket that is idle, as most are that
    // are asked.
    fn timer_or(&self, other: PollAt) -> PollAt {
        match self.timer {
            Timer::Idle { keep_alive_at: None } => other,
            timer => earlier(timer.poll_at(), other),
        }
    }
}

impl<'a, G> Socket<'a, G> {
    /// When the socket wants its next `dispatch`, in this context: at once, at a moment, or after the next segment
    /// that it takes. Before that a `dispatch` emits nothing.
    pub fn poll_at<C: Context>(&self, cx: &C) -> PollAt {
        self.control_block.poll_at(cx)
    }
}

impl<'a, G> Socket<'a, G> {
    /// Whether the connection has something left to do: bytes in the transmit queue in ESTABLISHED and CLOSE-WAIT; a
    /// SYN in SYN-SENT, and in SYN-RECEIVED unless it is paused; the own FIN in FIN-WAIT-1, CLOSING and LAST-ACK; the
    /// end of TIME-WAIT; the RST in CLOSED while there is a peer. smoltcp has no such call.
    pub fn has_work(&self) -> bool {
        self.control_block.has_work()
    }
}
