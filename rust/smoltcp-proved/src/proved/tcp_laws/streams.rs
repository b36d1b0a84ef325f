// Made from crates/tcp_laws/src/streams.rt by rust/translate: change it there.
//! What is promised of one socket beyond its case tables, as laws: functions whose contracts are the laws. Their bodies
//! are empty, or the one call that the law speaks of.

use crate::proved::control_wire::TcpRepr;
use crate::proved::ip_wire::{IpEndpoint, IpListenEndpoint, IpRepr};
use crate::proved::sock_core::Context;
use crate::proved::sock_tcp::{ConnectError, ListenError, RecvError, Reply, SendError, Socket, TsvalSource};

/// A segment, whichever it is, does nothing to the receive buffer but that its in-window bytes come at their offset
/// from RCV.NXT: the receive queue is only appended to.
pub fn process_only_appends() {}

/// The promise of one socket. After any list of calls on a new socket over any two buffers, with any segments that
/// `accepts` lets in, those of a hostile peer too, and while its connection lasts (from `listen`, `connect` or a return
/// to LISTEN up to the next reset or such return; all counts then begin anew, with what stands in the queues: nothing
/// after a reset, and what the connection left after a return to LISTEN, which empties neither queue):
///
/// - the transmit queue is what the sending calls accepted, less the bytes that were released from its beginning;
/// - what joined the receive queue is what the receiving calls handed out, followed by the receive queue, and the place
///   behind it holds no byte, so that the queue is all of what came without a gap;
/// - whatever segment comes next, the receive queue is only appended to, and no byte of it changes;
/// - whatever the next `dispatch` sends, a keep-alive aside: a payload at the number n is the part of what was accepted
///   that begins n - SND.UNA bytes behind the released ones.
pub fn one_socket_keeps_its_streams() {}

/// The bytes of the peer's stream by their places, counted from the first that joined the receive queue, at any call
/// after any list of calls on a new socket, while its connection lasts: each byte that joined stays at its place, and
/// each that is held behind a gap stays at its own until it joins, but where a segment brings a later copy. Only a
/// segment brings bytes: the part of it that lies inside the receive window, or none of it.
pub fn bytes_stay_at_their_places() {}

/// A receive buffer that is not of 0 bytes has room for one unit of the socket's window field, after any list of calls
/// on a new socket. So once all of it was read, and none of it is held, it tells a window above 0 (RFC 7323,
/// section 2.3).
pub fn window_unit_fits() {}

/// A `dispatch` in the words of the law on lists of calls: there is a segment, or none, that the socket sends, and
/// `emit` is called once with it, or not at all.
pub fn dispatch_sends<
    G: TsvalSource,
    C: Context,
    E,
    F: FnOnce(&mut C, (IpRepr, TcpRepr<'_>)) -> Result<(), E>,
>(
    socket: &mut Socket<'_, G>,
    cx: &mut C,
    emit: F,
) -> Result<(), E> {
    socket.dispatch(cx, emit)
}

/// A `send` in the words of that law: as for a closure of which nothing is known.
pub fn send_accepts<G, R, F: FnOnce(&mut [u8]) -> (usize, R)>(
    socket: &mut Socket<'_, G>,
    f: F,
) -> Result<R, SendError> {
    socket.send(f)
}

/// A `recv` in the words of that law: as for a closure of which nothing is known.
pub fn recv_hands_out<G, R, F: FnOnce(&[u8]) -> (usize, R)>(
    socket: &mut Socket<'_, G>,
    f: F,
) -> Result<R, RecvError> {
    socket.recv(f)
}

/// A `listen` as a call of that law: where it opens the socket the counts begin anew, and else nothing is counted.
pub fn listen_opens<G>(socket: &mut Socket<'_, G>, local: IpListenEndpoint) -> Result<(), ListenError> {
    socket.listen(local)
}

/// A `connect` as a call of that law: where it answers Ok the counts begin anew, and else nothing is counted.
pub fn connect_opens<G, C: Context>(
    socket: &mut Socket<'_, G>,
    cx: &mut C,
    remote: IpEndpoint,
    local: IpListenEndpoint,
) -> Result<(), ConnectError> {
    socket.connect(cx, remote, local)
}

/// A `close` as a call of that law: nothing is counted.
pub fn close_ends<G>(socket: &mut Socket<'_, G>) {
    socket.close();
}

/// An `abort` as a call of that law: nothing is counted.
pub fn abort_resets<G>(socket: &mut Socket<'_, G>) {
    socket.abort();
}

// The numbers of a segment have 32 bits.
fn numbers_fit(repr: &TcpRepr<'_>) {
    repr.seq_number.in_range(); // for its contract
    if let Some(ack) = repr.ack_number {
        ack.in_range(); // for its contract
    }
}

/// A `process` as a call of that law: what joins the receive queue and what leaves the transmit queue is counted, and
/// where the socket listens again the counts begin anew.
pub fn process_receives<G: TsvalSource, C: Context>(
    socket: &mut Socket<'_, G>,
    cx: &mut C,
    ip_repr: &IpRepr,
    repr: &TcpRepr<'_>,
) -> Option<Reply> {
    numbers_fit(repr);
    socket.process(cx, ip_repr, repr)
}

/// Each setter as a call of that law, by what its contract says of the socket: nothing is counted. The source of
/// timestamps itself is no part of a socket's control block, but whether there is one.
pub fn settings_are_calls() {}
