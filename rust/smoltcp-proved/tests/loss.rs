//! A thousand exchanges of random bytes both ways, over networks that lose, repeat and reorder packets.
mod common;
use common::*;
use smoltcp_proved::PollAt;
use smoltcp_proved::tcp::{RecvError, State};
use smoltcp_proved::time::Duration;

/// Numbers by xorshift (Marsaglia 2003).
struct Random(u64);

impl Random {
    fn below(&mut self, end: usize) -> usize {
        self.0 ^= self.0 << 13;
        self.0 ^= self.0 >> 7;
        self.0 ^= self.0 << 17;
        (self.0 >> 16) as usize % end
    }

    fn bytes(&mut self, count: usize) -> Vec<u8> {
        (0..count).map(|_| self.below(256) as u8).collect()
    }
}

/// A host with what it has to send, and what it has read.
struct Side<'a> {
    host: Host<'a>,
    data: &'a [u8],
    sent: usize,
    read: Vec<u8>,
    finished: bool,
}

impl<'a> Side<'a> {
    fn new(host: Host<'a>, data: &'a [u8]) -> Side<'a> {
        Side { host, data, sent: 0, read: Vec::new(), finished: false }
    }

    /// What a program does: writes, closes behind the last byte, and reads.
    fn work(&mut self, random: &mut Random) {
        let socket = &mut self.host.socket;
        let count = random.below(self.data.len() - self.sent + 1);
        self.sent += socket.send_slice(&self.data[self.sent..self.sent + count]).unwrap_or(0);
        if self.sent == self.data.len() && socket.may_send() {
            socket.close();
        }
        self.recv(random.below(1000));
    }

    /// Reads at most so many bytes; answers how many are left.
    fn recv(&mut self, most: usize) -> usize {
        let mut bytes = vec![0; most];
        match self.host.socket.recv_slice(&mut bytes) {
            Ok(count) => self.read.extend(&bytes[..count]),
            Err(RecvError::Finished) => self.finished = true,
            Err(RecvError::InvalidState) => {}
        }
        self.host.socket.recv_queue()
    }

    /// Puts what is due onto the way.
    fn emit(&mut self, way: &mut Vec<Vec<u8>>) {
        for _ in 0..64 {
            match self.host.emit() {
                Some(packet) => way.push(packet),
                None => return,
            }
        }
    }

    /// Takes what comes by the way: one in five packets is lost, one in ten is repeated, one in five overtakes.
    fn take(&mut self, way: &mut Vec<Vec<u8>>, back: &mut Vec<Vec<u8>>, random: &mut Random) {
        let mut packets = std::mem::take(way);
        for at in 1..packets.len() {
            if random.below(5) == 0 {
                packets.swap(at - 1, at);
            }
        }
        for packet in packets {
            if random.below(5) == 0 {
                continue;
            }
            if random.below(10) == 0 {
                way.push(packet.clone());
            }
            let mut reply = vec![0; REPLY_LEN];
            if let Ok(Some(len)) = self.host.socket.hear(&mut self.host.cx, &packet, &mut reply) {
                back.push(reply[..len].to_vec());
            }
        }
    }

    fn is_over(&self) -> bool {
        matches!(self.host.socket.state(), State::Closed | State::TimeWait)
    }
}

/// Goes to the next moment at which one wants its dispatch, but at least a millisecond and at most a second.
fn go_on(a: &mut Side, b: &mut Side, busy: bool) {
    let now = a.host.cx.now();
    let mut next = now + Duration::from_millis(if busy { 1 } else { 1000 });
    for host in [&a.host, &b.host] {
        match host.socket.poll_at(&host.cx) {
            PollAt::Now => next = next.min(now + Duration::from_millis(1)),
            PollAt::Time(at) => next = next.min(at.max(now + Duration::from_millis(1))),
            PollAt::Ingress => {}
        }
    }
    a.host.cx.set_now(next);
    b.host.cx.set_now(next);
}

/// One exchange. Answers whether all that was sent was read, by both; and whatever was read is what was sent.
fn exchange(seed: u64) -> bool {
    let mut random = Random(seed.wrapping_mul(0x9e37_79b9_7f4a_7c15) | 1);
    let mut rooms: [Vec<u8>; 4] = std::array::from_fn(|_| vec![0; 100 + random.below(5000)]);
    let [p, q, r, s] = &mut rooms;
    let words = [random.below(1 << 32) as u32, random.below(1 << 32) as u32];
    let mut of_a = Host { socket: socket(p, q), cx: context(1, words[0]) };
    let mut of_b = Host { socket: socket(r, s), cx: context(2, words[1]) };
    for socket in [&mut of_a.socket, &mut of_b.socket] {
        socket.set_tsval_generator((random.below(2) == 0).then_some(clock));
        socket.set_nagle_enabled(random.below(2) == 0);
        socket.set_keep_alive(Some(Duration::from_secs(5)));
        socket.set_timeout(Some(Duration::from_secs(600)));
    }
    of_b.socket.listen(80).expect("a closed socket listens");
    of_a.socket.connect(&mut of_a.cx, (B, 80), 49152).expect("a closed socket connects");
    let (of_a_to_b, of_b_to_a) = (random.below(12_000), random.below(12_000));
    let (a_data, b_data) = (random.bytes(of_a_to_b), random.bytes(of_b_to_a));
    let (mut a, mut b) = (Side::new(of_a, &a_data), Side::new(of_b, &b_data));
    let (mut to_b, mut to_a) = (Vec::new(), Vec::new());
    for _ in 0..20_000 {
        for side in [&mut a, &mut b] {
            side.work(&mut random);
        }
        a.emit(&mut to_b);
        b.emit(&mut to_a);
        let busy = !to_a.is_empty() || !to_b.is_empty();
        b.take(&mut to_b, &mut to_a, &mut random);
        a.take(&mut to_a, &mut to_b, &mut random);
        if a.is_over() && b.is_over() {
            break;
        }
        go_on(&mut a, &mut b, busy);
    }
    for (side, other) in [(&mut a, &b_data), (&mut b, &a_data)] {
        while side.recv(1000) > 0 {}
        side.recv(1);
        assert!(other.starts_with(&side.read), "other bytes, seed {seed}");
        assert!(!side.finished || side.read == *other, "finished early, seed {seed}");
    }
    a.finished && b.finished
}

/// Both sides can come to send again at once, and then the user timeout alone ends the connection (docs/SMOLTCP.md; seed
/// 497 is one): what was read is a beginning of what was sent.
#[test]
fn a_thousand_exchanges() {
    let whole = (1..=1000).filter(|&seed| exchange(seed)).count();
    assert!(whole >= 990, "{whole} of 1000 whole");
}
