// Made from crates/sock_tcp/src/ended.rt by rust/translate: change it there.
//! Why a connection ended.

use crate::proved::control_wire::TcpControl;
use crate::proved::sock_tcp::control_block::ControlBlock;
use crate::proved::sock_tcp::socket::Socket;
use crate::proved::sock_tcp::state::State;

/// Why a socket is CLOSED that was open before.
#[derive(Debug, Clone, Copy, PartialEq, Eq)]
pub enum Ended {
    /// Both sides closed, and the peer acknowledged the own FIN: LAST-ACK or TIME-WAIT is over.
    Finished,
    /// The peer answered the SYN by an RST (RFC 9293, section 3.10.7.3).
    Refused,
    /// The peer sent an RST (RFC 9293, section 3.10.7.4).
    Reset,
    /// The user timeout was over (RFC 9293, section 3.9.1).
    TimedOut,
    /// The own side ended it: by `abort`, or by `close` in LISTEN or SYN-SENT.
    /// An abort in TIME-WAIT is one too.
    Aborted,
    /// The interface has the connection's own address no longer.
    Unaddressable,
}

// What a segment with this control bit says of the end, where the state went from `before` to `after`.
#[inline(always)]
pub(crate) fn by_segment(
    before: State,
    control: TcpControl,
    after: State,
    ended: Option<Ended>,
) -> Option<Ended> {
    match (after, before, control) {
        (State::Closed, State::Closed, _) => ended,
        (State::Closed, State::SynSent, TcpControl::Rst) => Some(Ended::Refused),
        (State::Closed, _, TcpControl::Rst) => Some(Ended::Reset),
        (State::Closed, _, _) => Some(Ended::Finished),
        _ => ended,
    }
}

// What a dispatch says of the end, where the state went from `before` to `after`; heard: the socket knows a moment at
// which the peer was heard.
#[inline(always)]
pub(crate) fn by_dispatch(before: State, after: State, heard: bool, ended: Option<Ended>) -> Option<Ended> {
    match (after, before, heard) {
        (State::Closed, State::Closed, _) => ended,
        (State::Closed, State::TimeWait, _) => Some(Ended::Finished),
        (State::Closed, _, true) => Some(Ended::TimedOut),
        (State::Closed, _, false) => Some(Ended::Unaddressable),
        _ => ended,
    }
}

// What a close in this state says of the end.
pub(crate) fn by_close(before: State, ended: Option<Ended>) -> Option<Ended> {
    match before {
        State::Listen | State::SynSent => Some(Ended::Aborted),
        _ => ended,
    }
}

impl<'a> ControlBlock<'a> {
    // The state of the connection, which may be asked for in the middle of a change.
    #[inline(always)]
    pub(crate) fn state(&self) -> State {
        self.state
    }
}

impl<'a, G> Socket<'a, G> {
    /// Why the last connection ended, or the wait for one: what the calls since the last `listen` or `connect` that was
    /// not refused did. None where it has not ended, and in a socket that was never opened. So an error of `recv` that
    /// the state does not allow it means: not yet, where this is none, and else the end that this tells.
    pub fn ended(&self) -> Option<Ended> {
        self.ended
    }
}
