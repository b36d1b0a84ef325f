// Made from crates/sock_tcp/src/state.rt by rust/translate: change it there.
//! The states of a connection (RFC 9293, section 3.3.2).

use core::fmt;

/// The state of a connection.
#[derive(Debug, Clone, Copy, PartialEq, Eq)]
pub enum State {
    Closed,
    Listen,
    SynSent,
    SynReceived,
    Established,
    FinWait1,
    FinWait2,
    CloseWait,
    Closing,
    LastAck,
    TimeWait,
}

impl State {
    /// The name that RFC 9293 gives the state, as `SYN-SENT`.
    pub fn name(self) -> &'static str {
        match self {
            State::Closed => "CLOSED",
            State::Listen => "LISTEN",
            State::SynSent => "SYN-SENT",
            State::SynReceived => "SYN-RECEIVED",
            State::Established => "ESTABLISHED",
            State::FinWait1 => "FIN-WAIT-1",
            State::FinWait2 => "FIN-WAIT-2",
            State::CloseWait => "CLOSE-WAIT",
            State::Closing => "CLOSING",
            State::LastAck => "LAST-ACK",
            State::TimeWait => "TIME-WAIT",
        }
    }
}

impl State {
    // A SYN is to be sent, or was sent and is not acknowledged.
    pub(crate) fn is_opening(self) -> bool {
        matches!(self, State::SynSent | State::SynReceived)
    }

    // A FIN is to be sent, or was sent and is not acknowledged.
    pub(crate) fn is_closing(self) -> bool {
        matches!(self, State::FinWait1 | State::Closing | State::LastAck)
    }

    pub(crate) fn is_closed(self) -> bool {
        matches!(self, State::Closed)
    }

    // The peer is told of a larger window.
    pub(crate) fn tells_window(self) -> bool {
        matches!(
            self,
            State::SynSent | State::SynReceived | State::Established | State::FinWait1 | State::FinWait2
        )
    }

    // Segments carry what is in the transmit queue.
    pub(crate) fn carries_data(self) -> bool {
        matches!(self, State::Established | State::CloseWait) || self.is_closing()
    }

    // Whether there is work to do, with a peer, an empty transmit queue, a SYN|ACK that has to wait.
    pub(crate) fn works(self, peer: bool, empty: bool, paused: bool) -> bool {
        match self {
            State::Closed => peer,
            State::Listen | State::FinWait2 => false,
            State::SynReceived => !paused,
            State::Established | State::CloseWait => !empty,
            State::SynSent | State::FinWait1 | State::Closing | State::LastAck | State::TimeWait => true,
        }
    }
}

/// The state's name.
impl fmt::Display for State {
    fn fmt(&self, f: &mut fmt::Formatter<'_>) -> fmt::Result {
        write!(f, "{}", self.name())
    }
}
