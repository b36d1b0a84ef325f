// Made from crates/sock_tcp/src/path_mtu.rt by rust/translate: change it there.
//! The path MTU: a router says that packets are too long (RFC 1191, RFC 8201).

use crate::proved::control_wire::TcpSeqNumber;
use crate::proved::ip_wire::IpAddress;
use crate::proved::net_base::time::Instant;
use crate::proved::sock_core::congestion::Controller;
use crate::proved::sock_tcp::control_block::ControlBlock;
use crate::proved::sock_tcp::scoreboard::NOTHING_TOLD;
use crate::proved::sock_tcp::socket::Socket;
use crate::proved::sock_tcp::timer::Timer;
use crate::proved::sock_tcp::undo::NOTHING_TO_UNDO;

// The shortest packet that every path carries: over IPv4 what every host takes (RFC 791, section 3.1), and over IPv6
// (RFC 8200, section 5).
const LEAST_IPV4_MTU: usize = 576;

const LEAST_IPV6_MTU: usize = 1280;

// The largest segment without options in a packet of so many bytes.
fn path_mss(peer: &IpAddress, mtu: usize) -> usize {
    match peer {
        IpAddress::Ipv4(_) => mtu.max(LEAST_IPV4_MTU) - 20 - 20,
        IpAddress::Ipv6(_) => mtu.max(LEAST_IPV6_MTU) - 40 - 20,
    }
}

impl<'a> ControlBlock<'a> {
    // The MSS toward the peer.
    fn mss_by_path(&self, mtu: usize) -> usize {
        match &self.tuple {
            None => self.remote_mss,
            Some(tuple) => self.remote_mss.min(path_mss(&tuple.remote.addr, mtu)),
        }
    }

    fn has_sent_bytes(&self) -> bool {
        self.state.carries_data() && !self.tx_buffer.is_empty() && self.flight() != 0
    }

    // Segments are at most so long from now on.
    fn shorten(&mut self, mss: usize) {
        self.remote_mss = mss;
        self.congestion_controller.set_mss(mss.max(1));
    }

    // All behind SND.UNA goes out again, and congestion control is told of no loss.
    fn send_all_again(&mut self, now: Instant) {
        self.recovery
            .set(self.recovery.get().timed_out(crate::kit::in_force(self.rules), self.remote_last_seq));
        self.sacked.set(NOTHING_TOLD);
        self.undo.set(NOTHING_TO_UNDO);
        self.remote_last_seq = self.local_seq_no;
        self.rtte.on_retransmit();
        self.timer = Timer::retransmit(now, &self.rtte);
    }

    // A path MTU that is not below what was known changes nothing.
    fn set_path_mtu(&mut self, now: Instant, mtu: usize) {
        let mss = self.mss_by_path(mtu);
        if mss >= self.remote_mss {
            return;
        }
        let again = self.has_sent_bytes();
        self.shorten(mss);
        if again {
            self.send_all_again(now);
        }
    }
}

impl<'a, G> Socket<'a, G> {
    /// Tells the path MTU: the length in bytes, IP header and all, of the longest packet that reaches the peer of the
    /// connection (RFC 1191, section 3; RFC 8201, section 4). Less than 576 counts as 576 over IPv4, and less than 1280
    /// as 1280 over IPv6. From `now` on segments are no longer than that; they are never longer than the peer's MSS
    /// and the context's MTU let them be, nor than an earlier call did. It counts until the connection ends, and not
    /// before the peer's SYN came, which tells its MSS.
    ///
    /// Where segments get shorter and bytes are in flight, all that is not acknowledged goes out again at once, in
    /// segments of the new length: `poll_at` says so. The congestion window stays as it is (RFC 1191, section 6.5).
    /// smoltcp has no such call.
    pub fn set_path_mtu(&mut self, now: Instant, mtu: usize) {
        self.control_block.set_path_mtu(now, mtu);
    }

    /// Whether this number was sent and is not acknowledged: it lies from SND.UNA up to the highest number that was
    /// sent. An ICMP error that quotes another one is not of a packet of this connection (RFC 5927, section 4.1).
    pub fn is_outstanding(&self, seq: TcpSeqNumber) -> bool {
        self.control_block.is_outstanding(seq)
    }
}

impl<'a> ControlBlock<'a> {
    fn is_outstanding(&self, seq: TcpSeqNumber) -> bool {
        seq.since(self.local_seq_no) < self.sent()
    }
}
