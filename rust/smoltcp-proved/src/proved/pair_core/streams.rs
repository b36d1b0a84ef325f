// Made from crates/pair_core/src/streams.rt by rust/translate: change it there.
//! The theorem on two streams, as laws: functions whose contracts are the theorem and whose bodies are empty.
//! The definitions stand in `specs/`, and docs/THEOREM.md explains them.

/// Streams with a limit below 2^29 bytes, over every list of steps, where any segment ever emitted may arrive at any
/// time: what each side handed out, followed by its receive queue, is a prefix of what the other accepted, and
/// acknowledgements released only bytes that the other took; a read that answers `Finished` finds the other side closed
/// and all its bytes handed out; and a closed side accepts nothing more.
pub fn streams_arrive_in_order() {}

/// Streams of any length arrive in order where a segment arrives only while it is young: neither count of its emitter,
/// of bytes released and of bytes taken, grew by 2^29 or more since its emission.
pub fn long_streams_arrive_in_order() {}

/// The invariant that carries both theorems: it holds at the start, each step of either side keeps it, and it promises
/// both streams of every network that it holds of.
pub fn the_invariant_is_kept() {}

/// A step of one side leaves the other side as it was, and forgets no segment, no byte handed out and no count.
pub fn a_step_only_adds() {}

/// The steps are not empty. An ordinary run, of a handshake, one byte, a close and a read, hands out the byte, and the
/// next read answers `Finished`. An abort of the connecting side sends the listener back to LISTEN. Two sides that
/// connect at once both come to send.
pub fn runs_exist() {}

/// Whole calls are runs of steps, by what they may do to one socket: a delivery with its answer, the beginning of a
/// dispatch, and what that emits and leaves. The calls of the application are steps already.
pub fn calls_are_runs() {}

/// What the invariant says of one socket: SND.UNA and SND.NXT are in their bounds once there is an initial sequence
/// number, and before any byte can have come the receive queue is empty.
pub fn bounds_of_a_socket() {}

/// A segment that lies inside the receive window, and that is cut to it and taken as the case tables say, is heard.
pub fn taken_segment_is_heard() {}

/// A segment at RCV.NXT that is taken whole is heard.
pub fn whole_segment_is_heard() {}

/// Bytes that are taken in order join the receive queue at once, followed by the bytes that were held behind them.
pub fn bytes_in_order_join_at_once() {}

/// The cut in 32-bit numbers is the cut in places: of a segment at the place `s`, and a window from the place `l` up to
/// the place `r`, the bytes from the greater of `l` and `s` up to the lesser of `r` and the segment's end.
pub fn cut_is_that_of_places() {}

/// An acknowledgement that is neither before SND.UNA nor after the end of the transmit queue, with a FIN's number more
/// where one may have been sent, lies at most that far past SND.UNA.
pub fn acknowledgement_in_range() {}

/// An acknowledgement that the case tables let pass does what an acknowledgement may do.
pub fn passing_acknowledgement_is_heard() {}

/// What a dispatch of a socket sends, a part of the transmit queue, a SYN or a keep-alive, is what a socket may send.
pub fn content_may_be_sent() {}

/// After an emit SND.NXT is the later of the old one and of the number that follows the segment, which ends at most one
/// number past the transmit queue: so it moves as SND.NXT may.
pub fn snd_nxt_after_an_emit() {}
