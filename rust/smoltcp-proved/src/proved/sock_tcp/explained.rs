// Made from crates/sock_tcp/src/explained.rt by rust/translate: change it there.
//! Laws on what `process` does with a segment, by the row that it falls into.

/// By either rules, where `explain` returned a row:
///
/// - Dropped: nothing changes, and nothing is answered. `AckUnacceptable`: nothing changes, and an RST answers.
/// - Challenged: a challenge ACK answers, at most one a second, and nothing changes but by that.
/// - `OldDuplicate` and `BeyondWindow`: the answer to what lies outside of the receive window, and nothing else.
/// - `Reset`: the socket is CLOSED, or from SYN-RECEIVED listens again where it did, and nothing is answered.
/// - `Ignored`: nothing is answered, and nothing changes but the number that tells which range of SACK comes first.
///   `NothingNew`: neither, but a challenge ACK answers.
/// - `InOrder`: its bytes, at least one, are put at the start of the receive window into the receive buffer, which was
///   left alone until then; `BehindGap`: likewise, but not at its start.
///
/// From `OldDuplicate` on this is said of the tables. By the RFCs' rules, what is done of loss comes behind them, and a
/// close that waits.
pub fn rows_say_what_becomes() {}
