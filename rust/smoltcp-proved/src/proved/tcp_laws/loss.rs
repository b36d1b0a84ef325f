// Made from crates/tcp_laws/src/loss.rt by rust/translate: change it there.
//! Laws on what a sender knows of a loss, and on what a receiver tells of it.

/// A scoreboard tells only what was told before, or stands in a block that is believed: of bytes that were sent and are
/// not acknowledged.
pub fn scoreboard_tells_only_what_came() {}

/// What the first block of a segment tells, which is the newest (RFC 2018, section 4), is told then.
pub fn scoreboard_tells_the_newest() {}

/// Whatever segment a socket with the RFCs' rules processes, its scoreboard tells then of no byte but of which it told
/// before, or which stands in a block of that segment that is believed, at the number that it has; wherever SND.UNA
/// moves.
pub fn scoreboard_follows_segments() {}

/// Whatever segment comes, each range that the answer tells by SACK is one of bytes that the socket holds behind a gap
/// when the call returns, at their numbers; and so does what a dispatch sends, which by smoltcp's rules tells no range.
/// A byte that is held stays until it joins the receive queue (`streams::bytes_stay_at_their_places`), so what was told
/// is never taken back while the connection lasts (RFC 2018, section 8).
pub fn answers_tell_what_is_held() {}

/// Where a segment shows that a recovery was for nothing, Reno's congestion window and threshold are at least what was
/// kept of the time before it, and nothing is marked to go out again (RFC 4015, section 3.2). The first echo of
/// something new decides, whatever it says, and what is decided is never undone: a later echo of the first sending, or
/// a D-SACK, changes nothing then.
pub fn recoveries_for_nothing_are_undone() {}

/// By the RFCs' rules: a duplicate acknowledgement of a peer that tells by SACK, none of whose blocks begins behind
/// SND.UNA, as a D-SACK (RFC 2883), and which undoes nothing: the count of duplicates, the congestion window, the
/// recovery, what was told, what is marked, and how long a loss is waited for, are as they were (RFC 6675, section 2).
/// No fast retransmission is due then that was not due before.
pub fn duplicates_below_change_no_loss() {}

/// By the RFCs' rules: where a segment tells of a loss while no recovery goes on, and something is in flight, a fast
/// retransmission is due at once, or the timer is over after as many quarters of a round trip as reordering was seen,
/// at most four (RFC 8985, section 6.2). A dispatch then comes to its emit with a fast recovery from SND.UNA on, of
/// which something is due. Where no reordering was seen nothing is waited for.
pub fn losses_are_waited_for() {}

/// By the RFCs' rules what tells of a loss lets the hole go out next. A third duplicate that tells something new, or of
/// a peer without SACK, makes a fast retransmission due while no recovery goes on: at once, or after as many quarters
/// of a round trip as reordering was seen (RFC 5681, section 3.2); and so do blocks of more than two segments behind a
/// hole at SND.UNA (RFC 6675, section 4). The dispatch then comes to its emit with the hole marked and due, and what
/// goes out has its number, or that of SND.UNA where none is told, and takes numbers.
pub fn told_holes_go_out_next() {}
