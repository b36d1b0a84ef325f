// Made from crates/host_bench/src/recovery.rt by rust/translate: change it there.
//! Transfers over a link that loses and delays packets, by the RFCs' rules.

use crate::draw::{Digest, Draw};
use crate::link::Link;
use crate::side::{CLIENT, Host, PACKET, SERVER, Side};
use smoltcp_proved::kit::alloc::{AllocError, Global};
use smoltcp_proved::kit::vec;
use smoltcp_proved::sockets::time::Instant;

// The size of each buffer.
const BUFFER: usize = 1 << 18;

// A transfer ends after so many milliseconds, whatever is left of it.
const MILLIS: u32 = 600_000;

// At most so many packets of a side go out in a millisecond.
const PACKETS: u32 = 256;

// How many of a thousand packets are lost, how long each way takes, in milliseconds, and how many kilobytes go.
const TRANSFERS: [[u32; 3]; 9] = [
    [1, 1, 8000],
    [10, 1, 8000],
    [20, 1, 4000],
    [50, 1, 2000],
    [1, 5, 8000],
    [10, 5, 8000],
    [20, 5, 4000],
    [50, 5, 2000],
    [20, 25, 2000],
];

/// Runs the transfers, one after the other.
pub fn recovery(alloc: Global, share: u32, draw: &mut Draw) -> Result<Digest, AllocError> {
    let mut digest = Digest::new();
    for [lost, delay, kilobytes] in TRANSFERS {
        let bytes = (kilobytes.min(8000) * share.min(1000)) as usize;
        let links = (Link::new(alloc, lost, delay as usize)?, Link::new(alloc, lost, delay as usize)?);
        transfer(alloc, links, bytes, draw, &mut digest)?;
    }
    Ok(digest)
}

fn transfer(
    alloc: Global,
    links: (Link, Link),
    bytes: usize,
    draw: &mut Draw,
    digest: &mut Digest,
) -> Result<(), AllocError> {
    let mut bytes_a = vec![in alloc; 0u8; 2 * BUFFER]?;
    let mut bytes_b = vec![in alloc; 0u8; 2 * BUFFER]?;
    let mut client = Host::new(alloc, CLIENT, bytes_a.as_mut_slice(), BUFFER, 1)?;
    let mut server = Host::new(alloc, SERVER, bytes_b.as_mut_slice(), BUFFER, 1)?;
    server.listen(0);
    client.connect(0, 49152);
    let millis = run((client, server), links, bytes, draw, digest)?;
    digest.took(millis);
    Ok(())
}

// Millisecond after millisecond, until the client has all that the server sends; how many that were.
fn run(
    sides: (Side<'_>, Side<'_>),
    links: (Link, Link),
    bytes: usize,
    draw: &mut Draw,
    digest: &mut Digest,
) -> Result<u32, AllocError> {
    let (mut client, mut server) = sides;
    let (mut there, mut back) = links;
    let (mut sent, mut got) = (0usize, 0usize);
    let text = [b'r'; 4096];
    for millis in 0..MILLIS {
        let now = Instant::from_micros(i64::from(millis) * 1000);
        arrive(&mut server, &mut there, &mut back, now, draw)?;
        arrive(&mut client, &mut back, &mut there, now, draw)?;
        if server.is_open(0) {
            sent = write(&mut server, &text, sent, bytes);
        }
        got = read(&mut client, got, digest);
        if got >= bytes {
            return Ok(millis);
        }
        speak(&mut client, &mut there, now, draw)?;
        speak(&mut server, &mut back, now, draw)?;
    }
    Ok(MILLIS)
}

// As much as the socket takes; how many bytes were written so far.
fn write(server: &mut Side<'_>, text: &[u8; 4096], sent: usize, bytes: usize) -> usize {
    let mut sent = sent;
    for _ in 0..PACKETS {
        let left = bytes.saturating_sub(sent).min(4096);
        if left == 0 {
            break;
        }
        let count = server.send(0, &text[..left]);
        if count == 0 {
            break;
        }
        sent = sent.saturating_add(count);
    }
    sent
}

// All that came; how many bytes were read so far.
fn read(client: &mut Side<'_>, got: usize, digest: &mut Digest) -> usize {
    let mut got = got;
    for _ in 0..PACKETS {
        let count = client.read(0, digest);
        if count == 0 {
            break;
        }
        got = got.saturating_add(count);
    }
    got
}

// The packets of this millisecond arrive, and after each the side says what is due.
fn arrive(
    side: &mut Side<'_>,
    link: &mut Link,
    back: &mut Link,
    now: Instant,
    draw: &mut Draw,
) -> Result<(), AllocError> {
    for packet in link.arrived() {
        let mut reply = [0u8; PACKET];
        let len = side.receive(now, packet.as_slice(), &mut reply);
        if len > 0 {
            back.send(&reply[..len.min(PACKET)], draw)?;
        }
        speak(side, back, now, draw)?;
    }
    Ok(())
}

// What is due goes out.
fn speak(side: &mut Side<'_>, link: &mut Link, now: Instant, draw: &mut Draw) -> Result<(), AllocError> {
    let mut packet = [0u8; PACKET];
    for _ in 0..PACKETS {
        let len = side.emit(now, &mut packet);
        if len == 0 {
            break;
        }
        link.send(&packet[..len.min(PACKET)], draw)?;
    }
    Ok(())
}
