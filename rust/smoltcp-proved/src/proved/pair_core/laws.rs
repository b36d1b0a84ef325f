// Made from crates/pair_core/src/laws.rt by rust/translate: change it there.
//! What the case tables of a socket come to for the theorem on two streams, as laws: functions whose contracts are the
//! laws and whose bodies are empty. What is proved of a pair stands on them, and looks into no case table of a socket
//! itself. And what is promised of a pair.

use crate::proved::sock_tcp::TsvalSource;

/// What `process` does with a segment that the socket accepts, and what it answers, is one of its effects on the
/// streams. The answer has any stamps.
pub fn process_heard() {}

/// What a dispatch does before it emits anything changes nothing that the streams see, moves SND.NXT back to SND.UNA
/// for a retransmission, or ends the connection: the user timeout is over, TIME-WAIT is, or the socket's address is
/// gone.
pub fn begun_shows() {}

/// What a dispatch emits, with any timestamp and any bytes that the ring lent, and the number that it has by the
/// socket's rules, may be emitted; and an emit that
/// succeeds leaves what may be left.
pub fn emission_plans() {}

/// A socket that `listen` opened shows no more than that it listens.
pub fn listened_shows() {}

/// A socket that `connect` opened shows its initial sequence number, the word that was drawn.
pub fn connected_shows() {}

/// `send_slice` and `send` append to the transmit queue, and change nothing else that the streams see.
pub fn queued_shows() {}

/// The streams see no setting.
pub fn settings_show_nothing() {}

/// `recv_slice` and `recv` take off the front of the receive queue, and RCV.NXT stays where it is.
pub fn read_shows() {}

/// Of every pair, both ways: what one side handed out, followed by its receive queue, is a prefix of what the other
/// accepted; acknowledgements released only bytes that the other took, and it took only bytes that were accepted.
pub fn pairs_deliver_in_order<G>() {}

/// A delivery that a side accepts, of a segment in order, appends the bytes of it that lie in the window in which the
/// side takes segments to the receive queue before it returns, and behind them what was held there.
pub fn pairs_deliver_at_once<G: TsvalSource>() {}

/// The bytes of a segment that this promise speaks of are those between the edges of the window: of a segment at the
/// place `n`, and a window from the place `l` up to the place `r`, the bytes from the greater of `l` and `n` up to the
/// lesser of `r` and the segment's end.
pub fn in_window_is_that_of_places() {}

/// Each event of a pair is a run of steps of the theorem on two streams, from the network that the pair shows to the
/// one that it shows afterwards; and a new pair shows the network of two sockets that were never opened.
pub fn events_are_runs<G: TsvalSource>() {}

/// What an event adds to the streams of each side is what its outcome says: `Accepted(n)` the first n bytes of a send,
/// `Read` its bytes, any other outcome nothing. So it is with events in turn.
pub fn outcomes_add_up<G: TsvalSource>() {}

/// Each event of a pair is one call on each of its sockets, or none, in the words of the law on any list of calls of
/// one socket (`Step`), by the rules of the socket. So each socket of a pair is what some list of calls makes of a new
/// one.
pub fn events_are_calls<G: TsvalSource>() {}

/// Where a side of a pair is not CLOSED and has no work (`has_work`), the other side took every byte that it ever
/// accepted, and all of them were acknowledged. So a pair whose connection lasts and whose sides both have no work has
/// delivered all.
pub fn no_work_means_taken<G>() {
    crate::proved::tcp_laws::poll::no_work_no_bytes()
}

/// With the RFCs' rules a side of a pair that has work to do always has a moment: `poll_at` does not answer `Ingress`.
pub fn sides_never_sleep<G>() {
    crate::proved::tcp_laws::poll::never_sleeps_by_rfc()
}

/// The two sides of a pair agree on the numbers of both streams (`SidesAgree`), where the one sends and the other is in
/// ESTABLISHED or behind it: what the receiver handed out, what waits there, and what of the transmit queue it has not
/// taken are together what the sender accepted.
pub fn sides_agree<G>() {}
