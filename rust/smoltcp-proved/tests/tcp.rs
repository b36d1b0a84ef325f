//! Worked examples of TCP that bytes can show. Numbers are those of RFC 9293, and of smoltcp where it says so.
mod common;
use common::*;
use smoltcp_proved::PollAt;
use smoltcp_proved::tcp::{CongestionControl, ConnectError, ListenError, RecvError, SendError, State};
use smoltcp_proved::time::{Duration, Instant};
use smoltcp_proved::wire::{IpEndpoint, IpListenEndpoint, Ipv6Address};

/// Buffers of two sockets.
struct Room {
    rx: [Vec<u8>; 2],
    tx: [Vec<u8>; 2],
}

impl Room {
    fn new(count: usize) -> Room {
        let bytes = || [vec![0; count], vec![0; count]];
        Room { rx: bytes(), tx: bytes() }
    }

    /// b listens at port 80, and a has begun to connect from port 49152.
    fn opening(&mut self) -> (Host<'_>, Host<'_>) {
        let Room { rx: [p, q], tx: [r, s] } = self;
        let mut a = Host { socket: socket(p, r), cx: context(1, 1000) };
        let mut b = Host { socket: socket(q, s), cx: context(2, 5000) };
        b.socket.listen(80).expect("a closed socket listens");
        a.socket.connect(&mut a.cx, (B, 80), 49152).expect("a closed socket connects");
        (a, b)
    }

    fn connected(&mut self) -> (Host<'_>, Host<'_>) {
        let (mut a, mut b) = self.opening();
        settle(&mut a, &mut b);
        assert_eq!((a.socket.state(), b.socket.state()), (State::Established, State::Established));
        (a, b)
    }
}

/// RFC 9293, section 3.5, figure 6.
#[test]
fn handshake() {
    let mut room = Room::new(64);
    let (mut a, mut b) = room.opening();
    assert_eq!(a.socket.poll_at(&a.cx), PollAt::Now);
    let syn = a.emit().expect("a SYN");
    assert_eq!((flags(&syn), number(&syn)), (SYN, 1000));
    assert_eq!(a.socket.state(), State::SynSent);
    assert_eq!(b.take(&syn), None);
    assert_eq!(b.socket.state(), State::SynReceived);
    let both = b.emit().expect("a SYN|ACK");
    assert_eq!((flags(&both), number(&both), acknowledged(&both)), (SYN | ACK, 5000, 1001));
    assert_eq!(a.take(&both), None);
    assert_eq!(a.socket.state(), State::Established);
    let ack = a.emit().expect("an ACK");
    assert_eq!((flags(&ack), number(&ack), acknowledged(&ack)), (ACK, 1001, 5001));
    assert_eq!(b.take(&ack), None);
    assert_eq!(b.socket.state(), State::Established);
    assert_eq!(a.socket.local_endpoint(), Some(IpEndpoint::new(A, 49152)));
    assert_eq!(a.socket.remote_endpoint(), Some(IpEndpoint::new(B, 80)));
    assert_eq!(b.socket.listen_endpoint(), IpListenEndpoint::from(80));
    assert!(a.socket.may_send() && a.socket.may_recv() && a.socket.can_send() && !a.socket.can_recv());
}

#[test]
fn refusals() {
    let mut room = Room::new(64);
    let (mut a, mut b) = room.opening();
    assert_eq!(b.socket.listen(0), Err(ListenError::Unaddressable));
    assert_eq!(b.socket.listen(81), Err(ListenError::InvalidState));
    assert_eq!(a.socket.connect(&mut a.cx, (B, 80), 1), Err(ConnectError::InvalidState));
    assert_eq!(b.socket.send_slice(b"no"), Err(SendError::InvalidState));
    assert_eq!(b.socket.recv_slice(&mut [0]), Err(RecvError::InvalidState));
    assert_eq!(b.socket.recv(|_| (0, ())), Err(RecvError::InvalidState));
    assert_eq!(b.socket.peek(1), Err(RecvError::InvalidState));
    assert_eq!(a.socket.emit(&a.cx, &mut [0; 20]), Err(TooShort));
    let syn = a.emit().expect("the SYN again");
    assert_eq!(a.socket.hear(&mut a.cx, &syn, &mut [0; 100]), Err(NotAccepted));
    assert_eq!(b.socket.hear(&mut b.cx, &syn[..39], &mut [0; 100]), Err(NotAccepted));
    let mut reply = [0; REPLY_LEN];
    let len = reset(&syn, &mut reply).expect("an RST");
    assert_eq!((flags(&reply), number(&reply), acknowledged(&reply)), (RST | ACK, 0, 1001));
    assert_eq!(reset(&reply[..len], &mut [0; 100]), None);
    assert_eq!(a.take(&reply[..len]), None);
    assert_eq!(a.socket.state(), State::Closed);
    assert_eq!(a.socket.connect(&mut a.cx, (B, 0), 1), Err(ConnectError::Unaddressable));
    assert_eq!(ConnectError::Unaddressable.to_string(), "unaddressable destination");
    assert_eq!(RecvError::Finished.to_string(), "operation finished");
    assert_eq!(State::FinWait2.to_string(), "FIN-WAIT-2");
}

/// Three segments that come in another order are read in theirs.
#[test]
fn reordering() {
    let mut room = Room::new(6000);
    let (mut a, mut b) = room.connected();
    let sent: Vec<u8> = (0..4000u32).map(|n| n as u8 ^ (n >> 8) as u8).collect();
    a.socket.set_congestion_control(CongestionControl::None);
    assert_eq!(a.socket.send_slice(&sent), Ok(4000));
    a.socket.set_nagle_enabled(false);
    let packets: Vec<_> = std::iter::from_fn(|| a.emit()).take(9).collect();
    assert_eq!(packets.len(), 3);
    let mut last = None;
    for packet in [&packets[2], &packets[1]] {
        last = b.take(packet);
        assert_eq!(b.socket.recv_queue(), 0);
    }
    // An acknowledgement of what came in order, at once: RFC 5681, section 4.2.
    assert_eq!(last.map(|ack| acknowledged(&ack)), Some(number(&packets[0])));
    b.take(&packets[0]);
    assert_eq!(b.socket.recv_queue(), 4000);
    let mut read = vec![0; 5000];
    assert_eq!(b.socket.recv_slice(&mut read), Ok(4000));
    assert_eq!(read[..4000], sent);
}

/// RFC 9293, section 3.8.6.1.
#[test]
fn probe_of_a_closed_window() {
    let mut room = Room::new(100);
    let (mut a, mut b) = room.connected();
    assert_eq!(a.socket.send_slice(&[1; 100]), Ok(100));
    settle(&mut a, &mut b);
    assert_eq!((b.socket.recv_queue(), a.socket.send_queue()), (100, 0));
    assert_eq!(a.socket.send_slice(&[2; 50]), Ok(50));
    assert_eq!(a.emit(), None);
    assert!(a.wait() > Duration::ZERO);
    let probe = a.emit().expect("a probe");
    assert_eq!(payload(&probe), [2]);
    let answer = b.take(&probe).expect("an answer");
    assert_eq!((window(&answer), acknowledged(&answer)), (0, number(&probe)));
    a.take(&answer);
    assert_eq!(b.socket.recv(|bytes| (bytes.len(), bytes == [1; 100])), Ok(true));
    settle(&mut a, &mut b);
    a.wait();
    settle(&mut a, &mut b);
    assert_eq!(b.socket.peek(100), Ok(&[2; 50][..]));
    assert_eq!(a.socket.send_queue(), 0);
}

/// Who closes first waits for late segments, ten seconds as smoltcp (RFC 9293, section 3.6.1, has twice the MSL).
#[test]
fn time_wait() {
    let mut room = Room::new(100);
    let (mut a, mut b) = room.connected();
    a.socket.close();
    settle(&mut a, &mut b);
    assert_eq!((a.socket.state(), b.socket.state()), (State::FinWait2, State::CloseWait));
    assert_eq!(b.socket.recv_slice(&mut [0; 9]), Err(RecvError::Finished));
    b.socket.close();
    let fin = b.emit().expect("a FIN");
    assert_eq!(flags(&fin), FIN | ACK);
    assert_eq!(a.take(&fin), None);
    assert_eq!((a.socket.state(), a.socket.is_open()), (State::TimeWait, false));
    let ack = a.emit().expect("an ACK");
    assert_eq!(acknowledged(&ack), number(&fin).wrapping_add(1));
    // The ACK is lost, and the FIN comes again.
    assert_eq!(a.take(&fin).map(|ack| acknowledged(&ack)), Some(acknowledged(&ack)));
    b.take(&ack);
    assert_eq!(b.socket.state(), State::Closed);
    assert_eq!(a.wait(), Duration::from_secs(10));
    assert_eq!((a.emit(), a.socket.state()), (None, State::Closed));
    assert_eq!(a.socket.poll_at(&a.cx), PollAt::Ingress);
}

/// Bytes are written where they are sent from, and read where they came.
#[test]
fn without_copies() {
    let mut room = Room::new(100);
    let (mut a, mut b) = room.connected();
    let there = a.socket.send(|places| {
        places[..8].copy_from_slice(b"in place");
        (8, places.len())
    });
    assert_eq!(there, Ok(100));
    settle(&mut a, &mut b);
    assert_eq!(b.socket.peek(3), Ok(&b"in "[..]));
    let mut copy = [0; 20];
    assert_eq!(b.socket.peek_slice(&mut copy), Ok(8));
    assert_eq!(b.socket.recv(|bytes| (3, bytes.to_vec())), Ok(b"in place".to_vec()));
    assert_eq!(b.socket.recv_slice(&mut copy[..3]), Ok(3));
    assert_eq!(b.socket.recv_queue(), 2);
    let over = std::panic::AssertUnwindSafe(|| b.socket.recv(|bytes| (bytes.len() + 1, ())));
    assert!(std::panic::catch_unwind(over).is_err());
    assert_eq!(b.socket.recv_queue(), 2);
}

#[test]
fn settings() {
    let (mut rx, mut tx) = ([0; 10], [0; 20]);
    let mut socket = socket(&mut rx, &mut tx);
    assert_eq!((socket.recv_capacity(), socket.send_capacity()), (10, 20));
    assert_eq!((socket.timeout(), socket.keep_alive()), (None, None));
    assert_eq!(socket.ack_delay(), Some(Duration::from_millis(10)));
    assert!(socket.nagle_enabled() && !socket.timestamp_enabled());
    assert_eq!((socket.hop_limit(), socket.congestion_control()), (None, CongestionControl::Reno));
    socket.set_timeout(Some(Duration::from_secs(60)));
    socket.set_keep_alive(Some(Duration::from_secs(5)));
    socket.set_ack_delay(None);
    socket.set_hop_limit(Some(32));
    socket.set_congestion_control(CongestionControl::None);
    socket.set_nagle_enabled(false);
    socket.set_tsval_generator(Some(clock));
    assert_eq!(socket.timeout(), Some(Duration::from_secs(60)));
    assert_eq!(socket.keep_alive(), Some(Duration::from_secs(5)));
    assert_eq!((socket.ack_delay(), socket.hop_limit()), (None, Some(32)));
    assert_eq!(socket.congestion_control(), CongestionControl::None);
    assert!(!socket.nagle_enabled() && socket.timestamp_enabled());
}

/// A socket goes to another thread in the middle of a connection, and its memory and buffers serve the next one.
#[test]
fn moved_and_made_anew() {
    let mut room = Room::new(100);
    {
        let (a, b) = room.connected();
        let boxed = Box::new(a);
        let (mut a, mut b) = std::thread::scope(|scope| {
            let thread = scope.spawn(move || {
                let mut a = *boxed;
                a.socket.send_slice(b"from a thread").expect("a connection sends");
                a
            });
            (thread.join().expect("the thread ends"), b)
        });
        settle(&mut a, &mut b);
        assert_eq!(b.socket.recv(|bytes| (bytes.len(), bytes.to_vec())), Ok(b"from a thread".to_vec()));
    }
    room.rx[0].fill(7);
    let (a, _b) = room.connected();
    assert_eq!(a.socket.recv_queue(), 0);
    assert!(a.cx.now() > Instant::ZERO);
}

/// RFC 9293, section 3.6, figure 13: both close at once. And an RST ends a connection at once (section 3.10.5).
#[test]
fn close_at_once_and_abort() {
    let mut room = Room::new(100);
    let (mut a, mut b) = room.opening();
    assert!(a.socket.is_open() && a.socket.is_active() && a.socket.has_work());
    assert!(b.socket.is_open() && !b.socket.is_active() && !b.socket.has_work() && b.socket.is_listening());
    settle(&mut a, &mut b);
    assert!(!a.socket.has_work() && !b.socket.is_listening());
    a.socket.close();
    b.socket.close();
    let (of_a, of_b) = (a.emit().expect("a FIN"), b.emit().expect("a FIN"));
    let (from_a, from_b) = (a.take(&of_b), b.take(&of_a));
    assert_eq!((a.socket.state(), b.socket.state()), (State::Closing, State::Closing));
    assert_eq!((from_a, from_b), (None, None));
    settle(&mut a, &mut b);
    assert_eq!((a.socket.state(), b.socket.state()), (State::TimeWait, State::TimeWait));

    let (mut a, mut b) = room.connected();
    a.socket.close();
    settle(&mut a, &mut b);
    b.socket.close();
    assert_eq!((b.socket.state(), b.socket.may_send(), b.socket.may_recv()), (State::LastAck, false, false));
    b.socket.abort();
    assert_eq!((b.socket.state(), b.socket.is_open()), (State::Closed, false));
    let rst = b.emit().expect("an RST");
    assert_eq!(flags(&rst) & RST, RST);
    assert_eq!(a.take(&rst), None);
    assert_eq!(a.socket.state(), State::Closed);
}

/// A SYN|ACK waits while it is paused, as in smoltcp.
#[test]
fn paused() {
    let mut room = Room::new(100);
    let (mut a, mut b) = room.opening();
    b.socket.pause_synack(true);
    let syn = a.emit().expect("a SYN");
    assert_eq!(b.take(&syn), None);
    assert_eq!((b.socket.state(), b.emit()), (State::SynReceived, None));
    b.socket.pause_synack(false);
    assert_eq!(b.emit().map(|packet| flags(&packet)), Some(SYN | ACK));
}

/// Over IPv6 (RFC 8200), with timestamps at the milliseconds of the context (RFC 7323).
#[test]
fn ipv6_and_timestamps() {
    let (mut room, address) = (Room::new(100), [0xfd, 0, 0, 0, 0, 0, 0, 0, 0, 0, 0, 0, 0, 0, 0, 2]);
    let (mut a, mut b) = room.connected();
    let at_b = (Ipv6Address::from(address), 80);
    for host in [&mut a, &mut b] {
        host.socket.abort();
        host.emit();
        host.socket.set_tsval_generator(Some(clock));
    }
    a.cx.set_ipv6_addr(Ipv6Address::LOCALHOST);
    b.cx.set_ipv6_addr(at_b.0);
    b.socket.listen(at_b).expect("a closed socket listens");
    a.socket.connect(&mut a.cx, at_b, 49152).expect("a closed socket connects");
    a.cx.set_now(Instant::from_millis(0x0102_0304));
    let syn = a.emit().expect("a SYN");
    assert_eq!((syn[0] >> 4, syn[6], &syn[8..24]), (6, 6, &Ipv6Address::LOCALHOST.octets()[..]));
    assert_eq!(syn[24..40], address);
    assert!(syn[60..].windows(6).any(|option| option == [8, 10, 1, 2, 3, 4]));
    b.take(&syn);
    settle(&mut a, &mut b);
    assert_eq!(b.socket.state(), State::Established);
    assert_eq!(
        b.socket.local_endpoint().map(|at| at.to_string()),
        Some("[fd00:0000:0000:0000:0000:0000:0000:0002]:80".into())
    );
    assert_eq!(b.socket.listen_endpoint(), at_b.into());
}

/// An address that was never set is no source.
#[test]
fn no_source() {
    let mut room = Room::new(64);
    let (mut socket, mut cx) = (socket(&mut room.rx[0], &mut room.tx[0]), Told::new(7));
    let over_ipv6 = IpEndpoint::new(Ipv6Address::LOCALHOST.into(), 80);
    assert_eq!(socket.connect(&mut cx, (B, 80), 49152), Err(ConnectError::Unaddressable));
    assert_eq!(socket.connect(&mut cx, over_ipv6, 49152), Err(ConnectError::Unaddressable));
    assert_eq!((socket.state(), socket.poll_at(&cx)), (State::Closed, PollAt::Ingress));
    cx.set_ipv4_addr([10, 0, 0, 1].into());
    assert_eq!(socket.connect(&mut cx, over_ipv6, 49152), Err(ConnectError::Unaddressable));
    assert_eq!(socket.connect(&mut cx, (B, 80), 49152), Ok(()));
}

/// Each connection begins with a word of its own, drawn for it.
#[test]
fn words() {
    let (mut room, mut other) = (Room::new(64), Room::new(64));
    let (mut a, mut b) = room.opening();
    let syn = a.emit().expect("a SYN");
    let mut reply = [0; REPLY_LEN];
    let mut third = socket(&mut other.rx[0], &mut other.tx[0]);
    // a packet that opens nothing uses no word, and two connections have two
    assert_eq!(b.socket.hear(&mut b.cx, &syn[..39], &mut reply), Err(NotAccepted));
    assert_eq!(b.take(&syn), None);
    assert_eq!(b.emit().map(|both| number(&both)), Some(5000));
    third.connect(&mut b.cx, (A, 80), 49152).expect("a closed socket connects");
    let mut packet = [0; 100];
    assert_eq!(third.emit(&b.cx, &mut packet), Ok(Some(20 + 20 + 12)));
    assert_eq!(number(&packet), 6000);
}
