// Made from crates/tcp_laws/src/poll.rt by rust/translate: change it there.
//! What is promised of `poll_at`, of a socket that waits, and of the payload of a segment, as laws: functions whose
//! contracts are the laws. Their bodies are empty, or the one call that the law speaks of.

use crate::proved::control_wire::TcpRepr;
use crate::proved::ip_wire::IpRepr;
use crate::proved::sock_core::Context;
use crate::proved::sock_tcp::{Socket, TsvalSource};

/// Where `poll_at` answers a moment after now, or `Ingress`, a `dispatch` at now in the same context has nothing to
/// send.
pub fn poll_at_hides_nothing() {}

/// A `dispatch` before the moment that `poll_at` answered: it emits nothing and leaves the context as it was.
pub fn dispatch_early<
    G: TsvalSource,
    C: Context,
    E,
    F: FnOnce(&mut C, (IpRepr, TcpRepr<'_>)) -> Result<(), E>,
>(
    socket: &mut Socket<'_, G>,
    cx: &mut C,
    emit: F,
) -> Result<(), E> {
    socket.dispatch(cx, emit)
}

/// What the payload of a segment keeps to, where it is not empty and no fast retransmission, probe or keep-alive: it
/// ends at or before SND.UNA plus the peer's window, and is at most the congestion window less what is in flight.
pub fn payload_keeps_to_windows() {}

/// By the RFCs' rules what goes out again keeps to the peer's window, too, unless it is one byte at SND.UNA.
pub fn retransmission_keeps_to_window() {}

/// How a socket with work to do may wait for a segment alone, after any list of calls on a new socket over any two
/// buffers of at most 2^30 bytes, with any segments that `accepts` lets in: only with an idle timer that has no moment,
/// without a user timeout and a keep-alive interval, and with no acknowledgement due; and only in SYN-RECEIVED with the
/// SYN taken as sent, or in ESTABLISHED, CLOSE-WAIT, FIN-WAIT-1, CLOSING or LAST-ACK, where something is in flight, or
/// nothing is and the peer's window is 0.
pub fn sleeps_only_so() {}

/// With the RFCs' rules a socket with work to do never waits for a segment alone: `poll_at` does not answer `Ingress`;
/// after any list of calls on a new socket, as its functions have them (each segment is processed by the rules that the
/// socket has, an open socket keeps its rules, and contexts tell lawful facts), over any two buffers of at most 2^30
/// bytes, with any segments that `accepts` lets in.
pub fn never_sleeps_by_rfc() {}

/// Without work to do a socket that is not CLOSED has an empty transmit queue, after any list of calls as above.
pub fn no_work_no_bytes() {}

/// With a user timeout a socket that has a peer never waits for a segment alone: `poll_at` answers `Now` where the
/// moment of the last segment is forgotten, and else a moment that is at the latest the timeout after it.
pub fn timeout_wakes() {}

/// With a keep-alive interval a socket that has a peer never waits for a segment alone, after any list of calls on a
/// new socket over any two buffers of at most 2^30 bytes.
pub fn keep_alive_wakes() {}

/// A `dispatch` of a socket with a peer at or after the moment of the last segment plus the user timeout leaves CLOSED,
/// whatever the state was.
pub fn timeout_ends<
    G: TsvalSource,
    C: Context,
    E,
    F: FnOnce(&mut C, (IpRepr, TcpRepr<'_>)) -> Result<(), E>,
>(
    socket: &mut Socket<'_, G>,
    cx: &mut C,
    emit: F,
) -> Result<(), E> {
    socket.dispatch(cx, emit)
}

/// In LAST-ACK a segment that acknowledges nothing new moves neither the moment of the last segment nor the peer's
/// window, nor the timer: so it puts the user timeout off no further, and wakes nothing.
pub fn last_ack_hears_nothing() {}

/// By the RFCs' rules a segment of one who does not know the numbers of a connection changes nothing, but that it may
/// be answered: an RST whose number is not RCV.NXT, and any in TIME-WAIT; a SYN, once the own one is acknowledged; what
/// else acknowledges what was never sent, but in SYN-RECEIVED; and where timestamps were agreed what else has an older
/// one.
pub fn blind_segments_change_nothing() {}

/// In ESTABLISHED, FIN-WAIT-1, CLOSE-WAIT and CLOSING a segment that passes and tells a window, as the answer to a
/// keep-alive does, leaves a socket with data due, where nothing is in flight and bytes or a FIN wait; by the RFCs'
/// rules, that or a window that is less than half of the largest one, than a segment and than what waits, and then
/// there is a moment at which what fits goes out; after any list of calls on a new socket over any two buffers of at
/// most 2^30 bytes.
pub fn window_wakes() {}

/// In the same states, where something is in flight, the third of such segments that says nothing new, as the answers
/// to three keep-alives do, makes a fast retransmission due (RFC 5681, section 3.2).
pub fn third_duplicate_wakes() {}

/// Why `poll_at` wants another dispatch at the same moment, after one that sent a keep-alive, or a segment that takes
/// no sequence number, over any list of calls as above: in FIN-WAIT-2 a probe timer is left over, or the interval of
/// keep-alives is 0, and then every dispatch at that moment sends; or a probe is due, or TIME-WAIT is over, or what a
/// keep-alive told does not count as told, and then one does.
pub fn acks_repeat_only_so() {}

/// A wake-up has a bound, over any list of calls on such a socket with a clock that begins at 0 or later and does not
/// go back: where a socket with a peer has a moment in its timer, or an acknowledgement due, or by the RFCs' rules
/// bytes that wait with nothing in flight, `poll_at` is at the latest the latest moment told, plus the longest of a
/// minute and of the keep-alive intervals and acknowledgement delays that were set.
pub fn wake_up_is_bounded() {}

/// With a keep-alive interval `poll_at` of a socket that has a peer is always so bounded.
pub fn keep_alive_is_bounded() {}

/// Where data, a SYN or a FIN is due just before the emit of a socket that is not CLOSED, what the dispatch sends takes
/// a sequence number; after any list of calls as above.
pub fn due_data_goes_out() {}

/// A dispatch once the retransmission timer is over, while the peer has a window and bytes or a FIN wait, has data due
/// from SND.UNA on (RFC 6298, section 5, rule 5.4), unless by the RFCs' rules a tail-loss probe goes out first.
pub fn retransmission_begins() {}
