// Made from crates/sock_tcp/src/next.rt by rust/translate: change it there.
//! What `dispatch` does next, and why, asked for beforehand (RFC 9293, section 3.8).

use crate::proved::net_base::time::{Duration, Instant};
use crate::proved::sock_core::{Context, PollAt};
use crate::proved::sock_tcp::begin::has_local_address;
use crate::proved::sock_tcp::control_block::ControlBlock;
use crate::proved::sock_tcp::poll::is_reached;
use crate::proved::sock_tcp::rules::Rules;
use crate::proved::sock_tcp::socket::Socket;
use crate::proved::sock_tcp::timer::{Timer, after, is_over};
use crate::proved::sock_tcp::tuple::Tuple;
use core::fmt;

/// What the next `dispatch` does, and why. Up to `WindowProbe` it is what comes before the reasons to emit: what goes
/// out then follows from what that changes.
#[derive(Debug, Clone, Copy, PartialEq, Eq)]
pub enum Reason {
    /// Nothing: there is no connection.
    NoPeer,
    /// The interface has lost the local address: the socket is reset, and emits nothing. As smoltcp.
    AddressGone,
    /// The user timeout is over: the connection ends with an RST (RFC 9293, section 3.8.3).
    UserTimeout,
    /// By the RFCs' rules: a tail-loss probe, or the hole of a loss that was waited for (RFC 8985, sections 6.2 and 7).
    TailLossProbe,
    /// The retransmission timer is over: all behind SND.UNA goes out again (RFC 6298, section 5).
    RetransmissionTimeout,
    /// Duplicate acknowledgements tell of a loss: the segment at SND.UNA goes out again (RFC 5681, section 3.2).
    FastRetransmission,
    /// The window of the peer is closed, and its probe is due (RFC 9293, section 3.8.6.1).
    WindowProbe,
    /// Nothing: the SYN|ACK waits until it is let go (`pause_synack`).
    Paused,
    /// The RST of a connection that ended here (RFC 9293, section 3.10.5).
    Reset,
    /// What was lost goes out again, in a fast recovery (RFC 5681, section 3.2; RFC 6675, section 5).
    Retransmission,
    /// Bytes that both windows let out (RFC 9293, section 3.8), after a timeout what was sent before.
    Data,
    /// The SYN, or the SYN|ACK (RFC 9293, section 3.5).
    Syn,
    /// The FIN, with the bytes before it (RFC 9293, section 3.6).
    Fin,
    /// An acknowledgement whose delay is over (RFC 9293, section 3.8.6.3), or by the RFCs' rules bytes that waited for
    /// a larger window (section 3.8.6.2.1).
    Delayed,
    /// A receive window that has doubled since it was sent (RFC 9293, section 3.8.6). As smoltcp.
    WindowUpdate,
    /// A keep-alive (RFC 9293, section 3.8.4).
    KeepAlive,
    /// TIME-WAIT is over, and the connection ends (RFC 9293, section 3.10.8).
    TimeWaitOver,
    /// Nothing is due until then, as `poll_at` returns it.
    Waits(PollAt),
}

impl Reason {
    /// What the reason prints.
    pub fn text(self) -> &'static str {
        match self {
            Reason::NoPeer => "no connection",
            Reason::AddressGone => "local address gone",
            Reason::UserTimeout => "user timeout",
            Reason::TailLossProbe => "tail-loss probe",
            Reason::RetransmissionTimeout => "retransmission timeout",
            Reason::FastRetransmission => "fast retransmission",
            Reason::WindowProbe => "window probe",
            Reason::Paused => "SYN|ACK paused",
            Reason::Reset => "RST of a closed socket",
            Reason::Retransmission => "retransmission",
            Reason::Data => "data",
            Reason::Syn => "SYN",
            Reason::Fin => "FIN",
            Reason::Delayed => "acknowledgement or data whose delay is over",
            Reason::WindowUpdate => "window update",
            Reason::KeepAlive => "keep-alive",
            Reason::TimeWaitOver => "TIME-WAIT is over",
            Reason::Waits(_) => "waits",
        }
    }
}

impl fmt::Display for Reason {
    fn fmt(&self, f: &mut fmt::Formatter<'_>) -> fmt::Result {
        write!(f, "{}", self.text())
    }
}

impl<'a> ControlBlock<'a> {
    fn waiting_reason(&self, now: Instant, poll: PollAt) -> Reason {
        if self.timer.is_close_over(now) { Reason::TimeWaitOver } else { Reason::Waits(poll) }
    }

    fn timed_reason(&self, now: Instant, poll: PollAt) -> Reason {
        if is_reached(self.held_poll(), now) {
            return Reason::Delayed;
        }
        if self.window_doubled() {
            return Reason::WindowUpdate;
        }
        if self.timer.is_keep_alive_over(now) {
            return Reason::KeepAlive;
        }
        self.waiting_reason(now, poll)
    }

    fn has_fin(&self) -> bool {
        let end = self.local_seq_no.plus(self.tx_buffer.len());
        self.state.is_closing() && self.remote_last_seq == end
    }

    fn due_reason(&self, mss: usize, now: Instant, poll: PollAt) -> Reason {
        if self.state.is_closed() {
            return Reason::Reset;
        }
        if self.pending_fast_retransmit && !self.tx_buffer.is_empty() {
            return Reason::Retransmission;
        }
        let out = self.sendable();
        if out != 0 && !self.is_held_back(out, mss) {
            return Reason::Data;
        }
        if self.state.is_opening() && self.flight() == 0 {
            return Reason::Syn;
        }
        if self.has_fin() {
            return Reason::Fin;
        }
        self.timed_reason(now, poll)
    }

    fn unpaused_reason(&self, mss: usize, now: Instant, poll: PollAt) -> Reason {
        if self.is_paused() { Reason::Paused } else { self.due_reason(mss, now, poll) }
    }

    fn timer_reason(&self, mss: usize, now: Instant, poll: PollAt) -> Reason {
        match self.timer {
            Timer::Retransmit { expires_at } if is_over(expires_at, now) => Reason::RetransmissionTimeout,
            Timer::FastRetransmit => Reason::FastRetransmission,
            Timer::ZeroWindowProbe { expires_at, .. } if is_over(expires_at, now) => Reason::WindowProbe,
            _ => self.unpaused_reason(mss, now, poll),
        }
    }

    // How long the peer may be silent.
    fn running_timeout(&self) -> Option<Duration> {
        match crate::kit::in_force(self.rules) {
            Rules::Smoltcp => self.timeout(),
            Rules::Rfc => self.silence(),
        }
    }

    fn is_timed_out(&self, now: Instant) -> bool {
        let last = match self.remote_last_ts() {
            None => now,
            Some(last) => last,
        };
        match self.running_timeout() {
            None => false,
            Some(timeout) => is_over(after(last, timeout), now),
        }
    }

    // Where the retransmission timer is over, and a probe or a hole goes out in place of all.
    fn probes_tail(&self, now: Instant) -> bool {
        match self.timer {
            Timer::Retransmit { expires_at } => self.may_speak_now() && is_over(expires_at, now),
            _ => false,
        }
    }

    fn reason(&self, mss: usize, now: Instant, poll: PollAt) -> Reason {
        if self.is_timed_out(now) {
            return Reason::UserTimeout;
        }
        if self.probes_tail(now) {
            return Reason::TailLossProbe;
        }
        self.timer_reason(mss, now, poll)
    }

    fn reason_here<C: Context>(&self, cx: &C, mss: usize) -> Reason {
        let poll = self.poll_at(cx);
        self.reason(mss, cx.now(), poll)
    }

    fn reason_toward<C: Context>(&self, cx: &C, tuple: &Tuple) -> Reason {
        if !has_local_address(cx, tuple) {
            return Reason::AddressGone;
        }
        self.reason_here(cx, self.effective_mss(cx, tuple))
    }

    fn next<C: Context>(&self, cx: &C) -> Reason {
        match &self.tuple {
            None => Reason::NoPeer,
            Some(tuple) => self.reason_toward(cx, tuple),
        }
    }
}

impl<'a, G> Socket<'a, G> {
    /// What [`Socket::dispatch`] does next in this context, and why. Nothing changes. What a reason says of `dispatch`:
    /// `reasons::reasons_say_what_goes_out`.
    pub fn next<C: Context>(&self, cx: &C) -> Reason {
        self.control_block.next(cx)
    }
}
