// Made from crates/smoltcp_socket/src/tcp.rt by rust/translate: change it there.
//! TCP sockets (RFC 9293), and what goes with them.

pub use crate::proved::sock_core::{RttEstimator, before, congestion, later, not_after, window_shift};
pub use crate::proved::sock_tcp::{
    CongestionControl, ConnectError, Generator, ListenError, Reason, RecvError, Reply, Row, Rules,
    RulesError, SendError, Socket, SocketBuffer, State,
};
