// Made from crates/tcp_laws/src/windows.rt by rust/translate: change it there.
//! Laws on the windows that a socket tells and hears, and on the numbers that it sends, by the RFCs' rules.

/// The right edge of the receive window that a segment tells does not go back behind the one that was told last, but by
/// less than one unit of the window field (RFC 9293, section 3.8.6; RFC 7323, section 2.4): after any list of calls on
/// a new socket over any two buffers of at most 2^30 bytes, with any segments that `accepts` lets in. What a probe of
/// the window tells does not count as told: a later segment may tell less than that.
pub fn right_edge_stays() {}

/// The window of a keep-alive does not count as told either, and ends where the one does that was told last, but for
/// less than one unit of the window field: no later segment tells less than a keep-alive did.
pub fn keep_alive_moves_no_edge() {}

/// Whatever window was told once is honored (RFC 7323, section 2.4): after any such list, and any further calls on the
/// same connection, the right edge that was told before them, if by a keep-alive, does not lie behind that of the
/// window in which a segment is taken, and each number from RCV.NXT on, and before that edge, lies inside: also where
/// the right edge that is told has gone back since.
pub fn told_windows_are_honored() {}

/// It moves on by less than such a unit, and no segment goes out to tell it, while less is free behind it than half of
/// the receive buffer and than a segment of the connection (RFC 9293, section 3.8.6.2.2).
pub fn no_window_by_bytes() {}

/// Once as much is free behind it, a dispatch tells the window at once where nothing is left of the one that was told.
pub fn opened_window_is_told() {}

/// A segment that is older than the one that told the peer's window (SND.WL1 and SND.WL2) makes the window no larger,
/// whatever the socket does with it; where it is heard, at most what is left of that window counts (RFC 9293, section
/// 3.10.7.4).
pub fn older_window_is_not_taken() {}

/// What is sent without bytes, a SYN or a FIN has a number that is not before SND.NXT (RFC 9293, section 3.4), after
/// any such list.
pub fn number_is_not_behind() {}

/// Bytes or a FIN are not dropped for the age of the acknowledgement that they come with (RFC 9293, section 3.10.7.4):
/// from before SND.UNA, by no more than the largest window (RFC 5961, section 5.2), it is ignored, and the segment
/// passes, after any such list.
pub fn old_acknowledgement_passes() {}
