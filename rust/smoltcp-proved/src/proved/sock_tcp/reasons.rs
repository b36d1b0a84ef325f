// Made from crates/sock_tcp/src/reasons.rt by rust/translate: change it there.
//! A law on what `dispatch` does, by the reason that it has.

/// By either rules, where `next` returned a reason:
///
/// - `Reset`, `Retransmission`, `Data`, `Syn`, `Fin`, `Delayed`, `WindowUpdate`, `KeepAlive`: a segment of the socket
///   as it is goes to the peer.
/// - `NoPeer`, `AddressGone`, `Paused`, `TimeWaitOver`, `Waits`: `emit` is not called. `AddressGone` resets the socket,
///   `TimeWaitOver` ends the connection; a socket that waits is left alone, and its moment is that of `poll_at`.
/// - `UserTimeout`: the socket is CLOSED, and its RST goes to the peer.
/// - `RetransmissionTimeout`, `FastRetransmission`, `WindowProbe`, `TailLossProbe`: the dispatch begins with what the
///   tables of these make of the socket, and the reasons above follow.
pub fn reasons_say_what_goes_out() {}
