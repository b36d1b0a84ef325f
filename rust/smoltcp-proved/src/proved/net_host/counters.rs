// Made from crates/net_host/src/counters.rt by rust/translate: change it there.
//! What came of the packets that arrived, and of those of the sockets.

/// Why a packet is dropped.
#[derive(Debug, Clone, Copy, PartialEq, Eq)]
pub enum Reason {
    /// It is no IP packet, its length or header checksum is wrong, or it is a fragment of IPv4.
    Malformed,
    /// Its source is one that no single other host has.
    Source,
    /// Its destination is no address of the interface.
    Destination,
    /// It carries another protocol.
    Protocol,
    /// It carries a TCP segment with a wrong header or checksum.
    Segment,
    /// It carries a UDP datagram with a wrong length or checksum.
    Datagram,
    /// It carries an ICMP message with a wrong form or checksum, or of the other version of IP.
    Message,
    /// It carries a SYN for a port that is served, while no socket is free for it.
    Busy,
    /// It carries a segment or a datagram that no socket takes.
    Nobody,
    /// It carries a UDP datagram whose socket has no room for it.
    Full,
    /// It would begin a connection of a source that has as many as are allowed.
    TooMany,
}

/// How many packets were dropped, by their reasons. A number that is full begins anew.
#[derive(Debug, Clone, Copy, Default, PartialEq, Eq)]
pub struct Counters {
    pub malformed: u64,
    pub source: u64,
    pub destination: u64,
    pub protocol: u64,
    pub segment: u64,
    pub datagram: u64,
    pub message: u64,
    pub busy: u64,
    pub nobody: u64,
    pub full: u64,
    pub too_many: u64,
    /// SYNs that were answered without a socket; no packet of these three kinds counts as dropped for that.
    pub cookies_sent: u64,
    /// Acknowledgements of such answers that took a socket.
    pub cookies_taken: u64,
    /// Acknowledgements that no socket takes, of no such answer, while one may be acknowledged, to a port that a socket
    /// serves.
    pub cookies_wrong: u64,
    /// Packets of sockets that were dropped, as they were longer than the MTU.
    pub too_long: u64,
    /// Turns of UDP, ICMP and raw sockets that gave no packet, though one was due: there is no source address of the
    /// destination's version, or what was to be sent is no packet of its kind.
    pub unsent: u64,
}

impl Counters {
    /// One SYN more was answered without a socket.
    pub(crate) fn count_sent(&mut self) {
        self.cookies_sent = next(self.cookies_sent);
    }

    /// One acknowledgement more of such an answer took a socket.
    pub(crate) fn count_taken(&mut self) {
        self.cookies_taken = next(self.cookies_taken);
    }

    /// One acknowledgement more was of no such answer.
    pub(crate) fn count_wrong(&mut self) {
        self.cookies_wrong = next(self.cookies_wrong);
    }

    /// A socket's turn gave no packet: whether that was longer than the MTU, and whether the socket is one of TCP.
    pub(crate) fn count_lost(&mut self, lost: bool, of_tcp: bool) {
        if lost {
            self.too_long = next(self.too_long);
        } else if !of_tcp {
            self.unsent = next(self.unsent);
        }
    }

    /// One packet more was dropped for this reason.
    pub fn count(&mut self, reason: Reason) {
        match reason {
            Reason::Malformed => self.malformed = next(self.malformed),
            Reason::Source => self.source = next(self.source),
            Reason::Destination => self.destination = next(self.destination),
            Reason::Protocol => self.protocol = next(self.protocol),
            Reason::Segment => self.segment = next(self.segment),
            Reason::Datagram => self.datagram = next(self.datagram),
            Reason::Message => self.message = next(self.message),
            Reason::Busy => self.busy = next(self.busy),
            Reason::Nobody => self.nobody = next(self.nobody),
            Reason::Full => self.full = next(self.full),
            Reason::TooMany => self.too_many = next(self.too_many),
        }
    }
}

fn next(count: u64) -> u64 {
    count.wrapping_add(1)
}
