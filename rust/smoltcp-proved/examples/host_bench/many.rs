// Made from crates/host_bench/src/many.rt by rust/translate: change it there.
//! Many connections on one host, of which a few at a time ask and are answered.

use crate::draw::{Digest, Draw};
use crate::side::{CLIENT, Host, PACKET, SERVER, Side};
use smoltcp_proved::kit::alloc::{AllocError, Global};
use smoltcp_proved::kit::vec;
use smoltcp_proved::sockets::time::Instant;

// The size of each buffer.
const BUFFER: usize = 1024;

// At most so many connections.
const MOST: usize = 20_000;

// How many questions are asked in the whole job.
const QUESTIONS: u32 = 200_000;

// How many clients ask at a time.
const AT_A_TIME: u32 = 4;

// Milliseconds from one round of questions to the next. An acknowledgement is delayed by less, so that a round trip
// takes the same packets however many connections there are.
const PAUSE: u32 = 20;

// Every so many rounds a connection is ended and opened anew.
const ANEW: u32 = 50;

// The port of the first client.
const FIRST_PORT: u16 = 10_000;

// At most so many packets go out at one moment.
const PACKETS: u32 = 64;

/// Opens so many connections between two hosts, and lets clients that are drawn at random ask and be answered.
pub fn many(alloc: Global, sockets: usize, share: u32, draw: &mut Draw) -> Result<Digest, AllocError> {
    let count = sockets.clamp(1, MOST);
    let mut bytes_a = vec![in alloc; 0u8; count * 2 * BUFFER]?;
    let mut bytes_b = vec![in alloc; 0u8; count * 2 * BUFFER]?;
    let client = Host::new(alloc, CLIENT, bytes_a.as_mut_slice(), BUFFER, count)?;
    let server = Host::new(alloc, SERVER, bytes_b.as_mut_slice(), BUFFER, count)?;
    let questions = share.min(1000) * (QUESTIONS / 1000);
    Ok(run(client, server, count as u32, questions, draw))
}

fn run(mut client: Side<'_>, mut server: Side<'_>, count: u32, questions: u32, draw: &mut Draw) -> Digest {
    let mut digest = Digest::new();
    let mut now = 0;
    for i in 0..count {
        open(&mut client, &mut server, i, now);
        now = now.wrapping_add(1);
    }
    for round in 0..questions / AT_A_TIME {
        let first = draw.below(count.max(1));
        if round % ANEW == ANEW - 1 {
            client.abort(first as usize);
            exchange(&mut client, &mut server, now);
            open(&mut client, &mut server, first, now);
        }
        let clients = Clients { first, count };
        ask(&mut client, &mut server, clients, now, draw, &mut digest);
        now = now.wrapping_add(PAUSE);
        exchange(&mut client, &mut server, now);
    }
    digest.took(now);
    digest
}

// The client connects to the server's socket of the same number.
fn open(client: &mut Side<'_>, server: &mut Side<'_>, i: u32, now: u32) {
    server.listen(i as usize);
    client.connect(i as usize, FIRST_PORT.wrapping_add((i % 50_000) as u16));
    exchange(client, server, now);
}

// The clients that ask: some that follow each other.
#[derive(Clone, Copy)]
struct Clients {
    first: u32,
    count: u32,
}

impl Clients {
    fn number(self, k: u32) -> usize {
        (self.first.wrapping_add(k) % self.count.max(1)) as usize
    }
}

// A question of 20 to 500 bytes of each, and an answer of the same length.
fn ask(
    client: &mut Side<'_>,
    server: &mut Side<'_>,
    clients: Clients,
    now: u32,
    draw: &mut Draw,
    digest: &mut Digest,
) {
    let text = [b'q'; 500];
    for k in 0..AT_A_TIME {
        let len = 20 + draw.below(481) as usize;
        client.send(clients.number(k), &text[..len.min(500)]);
    }
    exchange(client, server, now);
    for k in 0..AT_A_TIME {
        let came = server.read(clients.number(k), digest).min(500);
        server.send(clients.number(k), &text[..came]);
    }
    exchange(client, server, now);
    for k in 0..AT_A_TIME {
        client.read(clients.number(k), digest);
    }
}

// What is due on both sides arrives, until nothing is.
fn exchange(client: &mut Side<'_>, server: &mut Side<'_>, millis: u32) {
    let now = Instant::from_micros(i64::from(millis) * 1000);
    for _ in 0..PACKETS {
        let went = pass(client, server, now);
        let came = pass(server, client, now);
        if !went && !came {
            break;
        }
    }
}

// A packet that is due arrives, and so does what answers it; whether there was one.
fn pass(from: &mut Side<'_>, to: &mut Side<'_>, now: Instant) -> bool {
    let (mut packet, mut reply) = ([0u8; PACKET], [0u8; PACKET]);
    let len = from.emit(now, &mut packet);
    if len == 0 {
        return false;
    }
    let answered = to.receive(now, &packet[..len.min(PACKET)], &mut reply);
    if answered > 0 {
        from.receive(now, &reply[..answered.min(PACKET)], &mut packet);
    }
    true
}
