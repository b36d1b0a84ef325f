// Made from crates/sock_tcp/src/rules.rt by rust/translate: change it there.
//! Which rules a socket follows, where smoltcp's differ from the RFCs'.

use crate::proved::sock_tcp::control_block::ControlBlock;
use crate::proved::sock_tcp::socket::Socket;
use crate::proved::sock_tcp::user_timeout::timeout_chosen;
use core::fmt;

/// The rules of a TCP socket.
#[derive(Debug, Clone, Copy, PartialEq, Eq)]
pub enum Rules {
    /// smoltcp's case tables, whole: a new socket has these.
    Smoltcp,
    /// smoltcp's case tables, but for what follows. Outside of the receive window (RFC 9293, sections 3.4 and
    /// 3.10.7.4) a FIN at RCV.NXT is taken, wherever the bytes before it lie; and acknowledgements and windows are
    /// processed of a peer whose number lies near the window, as of one that counts the byte of its probe of a window
    /// of 0.
    ///
    /// What takes no number has SND.MAX, also where SND.NXT went back (RFC 9293, section 3.4). A window counts where
    /// its segment is no older than the one that told the last, by SND.WL1 and SND.WL2, and LAST-ACK hears windows
    /// (section 3.10.7.4). What goes out again keeps to the peer's window, and a probe is the byte at SND.UNA (section
    /// 3.8.6). A window that opens and shuts before something went out does not put its probe off. A segment that the
    /// window makes small waits for what is in flight, or for half of the largest window or the retransmission timeout
    /// (section 3.8.6.2.1); one that the congestion window makes smaller than half of a segment waits for what is in
    /// flight.
    ///
    /// Of loss: what the peer tells by SACK is kept, four blocks of it (RFC 2018). Of a peer that does, an
    /// acknowledgement with something new counts as a duplicate, and no other (RFC 6675, section 2); of another one,
    /// the same acknowledgement with the same window (RFC 5681, section 2). The first two duplicates let out a segment
    /// each beyond the congestion window (RFC 3042), and one or two suffice where two or three segments are out and
    /// none waits (RFC 5827). From a fast retransmission on, each acknowledgement of a part of what was sent before,
    /// and each that tells something new, lets the next hole go out again, or where nothing is told the segment at
    /// SND.UNA, and the congestion controller is told of one loss (RFC 6582; RFC 6675). Where more than two segments
    /// that were sent later are told, the holes go out once more. Of the acknowledgements of a part the first alone
    /// begins the retransmission timer anew (RFC 6582, section 3.2). After a retransmission timeout duplicates do not
    /// count until what was sent before is acknowledged. Where a segment comes while something is in flight the
    /// retransmission timer runs, also where a keep-alive was to come; after a handshake with a lost SYN it begins anew
    /// with three seconds (RFC 6298, rules 5.1 and 5.7). Where it is over while the peer has no window, the window is
    /// probed for with the byte at SND.UNA, and no window is probed with nothing to send (RFC 9293, section 3.8.6.1).
    ///
    /// Bytes, a SYN or a FIN that are not acknowledged go out again until the user timeout is over, which is five
    /// minutes where none was set (RFC 9293, sections 3.8.3 and 3.9.1.1), and runs while something is not acknowledged,
    /// or a keep-alive is not answered (RFC 5482). No lower layer is told before (R1).
    ///
    /// The congestion window begins with ten segments (RFC 6928), grows by what is acknowledged (RFC 3465, RFC 9406),
    /// where at least half of it was queued (RFC 7661, section 4.2), and is at most ten segments again after a
    /// retransmission timeout without sending (RFC 5681, section 4.1).
    ///
    /// Of attacks: an acknowledgement of what was never sent is answered by a challenge ACK, and releases nothing (RFC
    /// 9293, section 3.10.7.4; RFC 5961, section 5.2). An RST counts at RCV.NXT alone; elsewhere in the window it is
    /// answered by a challenge ACK, at most one a second, and so is a SYN once the own one is acknowledged (RFC 5961,
    /// sections 3.2, 4.2 and 7). TIME-WAIT ignores RSTs (RFC 1337). When it is over, what was received can still be
    /// read (RFC 9293, section 3.10.4).
    ///
    /// Of timestamps, where both sides agreed on them: a segment with an older one than TS.Recent is answered by a
    /// challenge ACK, until 24 days have passed without a segment; one without is taken; and each acknowledgement has
    /// one, which echoes TS.Recent: the last of a segment whose number is not behind the last acknowledgement sent (RFC
    /// 7323, sections 4.3 and 5).
    Rfc,
}

/// Why a socket keeps its rules.
#[derive(Debug, Clone, Copy, PartialEq, Eq)]
pub enum RulesError {
    /// It is open.
    InvalidState,
}

impl fmt::Display for RulesError {
    fn fmt(&self, f: &mut fmt::Formatter<'_>) -> fmt::Result {
        f.write_str("invalid state")
    }
}

impl<'a> ControlBlock<'a> {
    fn choose(&mut self, rules: Rules) {
        self.rules = rules;
        self.keep_timeout(timeout_chosen(rules, self.timeout()));
    }
}

impl<'a, G> Socket<'a, G> {
    /// The socket's rules.
    pub fn rules(&self) -> Rules {
        self.control_block.rules
    }

    /// Chooses the rules of a socket that is not open, for all its connections from now on. With `Rules::Rfc` a socket
    /// without a user timeout gets one of five minutes (RFC 9293, section 3.9.1.1).
    ///
    /// # Errors
    /// An open one answers `RulesError::InvalidState`, and nothing changes.
    pub fn set_rules(&mut self, rules: Rules) -> Result<(), RulesError> {
        if self.control_block.is_open() {
            return Err(RulesError::InvalidState);
        }
        self.control_block.choose(rules);
        Ok(())
    }
}
