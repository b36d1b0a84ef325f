// Made from crates/sock_bench/src/talks.rt by rust/translate: change it there.
//! Many short conversations between two hosts: small requests and answers of up to some thousand bytes, each over a
//! connection of its own, beside sockets that sleep, with a few hostile packets.

use crate::station::{Slot, Station};
use smoltcp_proved::kit::alloc::{AllocError, Global};
use smoltcp_proved::kit::vec;
use smoltcp_proved::proved::bench_parts::conversation::{Role, SERVICE};
use smoltcp_proved::proved::bench_parts::digest::Digest;
use smoltcp_proved::proved::bench_parts::random::Random;
use smoltcp_proved::proved::bench_parts::wire::Wire;
use smoltcp_proved::proved::bench_parts::work::{
    BUFFER, CLIENT, FAULTS, MOMENTS, PIECE, SERVER, SIZES, Work, answer_len,
};
use smoltcp_proved::proved::smoltcp_socket::Context;
use smoltcp_proved::proved::smoltcp_socket::storage::RingBuffer;
use smoltcp_proved::proved::smoltcp_socket::tcp::Socket;
use smoltcp_proved::proved::smoltcp_socket::wire::{IpAddress, IpEndpoint, IpListenEndpoint};

/// Runs the conversations of hosts of several sizes.
pub fn talks(
    alloc: Global,
    share: u32,
    source: &[u8],
    random: &mut Random,
    digest: &mut Digest,
) -> Result<(), AllocError> {
    for size in SIZES {
        let [sockets, sleepers, conversations] = size;
        let left = conversations.min(1_000_000) * share.min(1000) as usize / 1000;
        let sockets = sockets.min(1000);
        let mut bytes = vec![in alloc; 0u8; sockets * 4 * BUFFER]?;
        let mut client = Station::new(alloc, CLIENT, random.word());
        let mut server = Station::new(alloc, SERVER, random.word());
        fill(bytes.as_mut_slice(), sleepers, &mut client, &mut server)?;
        let work = Work::new(left);
        run(alloc, work, (&mut client, &mut server), source, random, digest)?;
        client.add_to(digest);
        server.add_to(digest);
    }
    Ok(())
}

// Makes the sockets of both hosts.
fn fill<'a>(
    bytes: &'a mut [u8],
    sleepers: usize,
    client: &mut Station<'a>,
    server: &mut Station<'a>,
) -> Result<(), AllocError> {
    let mut made: usize = 0;
    let mut buffers = bytes.chunks_exact_mut(BUFFER);
    for _ in 0..1000 {
        let (Some(rx), Some(tx)) = (buffers.next(), buffers.next()) else {
            break;
        };
        let role = if made < sleepers { Role::Sleeper } else { Role::Client };
        add(client, rx, tx, role)?;
        let (Some(rx), Some(tx)) = (buffers.next(), buffers.next()) else {
            break;
        };
        add(server, rx, tx, Role::Server)?;
        made = made.saturating_add(1);
    }
    Ok(())
}

fn add<'a>(
    station: &mut Station<'a>,
    rx: &'a mut [u8],
    tx: &'a mut [u8],
    role: Role,
) -> Result<(), AllocError> {
    // a socket wants to know that its buffers are no longer
    if rx.len() > BUFFER || tx.len() > BUFFER {
        return Ok(());
    }
    let socket = Socket::closed(RingBuffer::new(rx), RingBuffer::new(tx), None);
    station.slots.push(Slot::new(socket, role))?;
    Ok(())
}

// Moment after moment, until all conversations were had.
fn run(
    alloc: Global,
    mut work: Work,
    hosts: (&mut Station<'_>, &mut Station<'_>),
    source: &[u8],
    random: &mut Random,
    digest: &mut Digest,
) -> Result<(), AllocError> {
    let (client, server) = hosts;
    let mut there = Wire::new(alloc, FAULTS);
    let mut back = Wire::new(alloc, FAULTS);
    let mut scratch = vec![in alloc; 0u8; PIECE]?;
    wake_sleepers(client, &mut work);
    for now in 0..MOMENTS {
        client.host.set_millis(now);
        server.host.set_millis(now);
        server.listen();
        let busy = begin(client, &mut work, random, digest);
        if !busy {
            break;
        }
        client.serve(scratch.as_mut_slice(), source, random, digest)?;
        client.pass(server, &mut there, random)?;
        server.serve(scratch.as_mut_slice(), source, random, digest)?;
        server.pass(client, &mut back, random)?;
    }
    Ok(())
}

// Begins a conversation on each socket that has none; whether there are still conversations.
fn begin(client: &mut Station<'_>, work: &mut Work, random: &mut Random, digest: &mut Digest) -> bool {
    let mut busy = work.left > 0;
    for slot in &mut client.slots {
        if !slot.is_idle() {
            busy = busy || slot.talk.role == Role::Client;
            continue;
        }
        slot.talk.add_to(digest);
        if work.left == 0 {
            continue;
        }
        work.left -= 1;
        let answer = answer_len(random);
        slot.begin(20 + random.below(480) as usize, answer);
        connect(slot, &mut client.host, work, random.happens(20));
    }
    busy
}

// The sockets that sleep are connected at the beginning.
fn wake_sleepers(client: &mut Station<'_>, work: &mut Work) {
    for slot in &mut client.slots {
        if slot.talk.role == Role::Sleeper {
            connect(slot, &mut client.host, work, false);
        }
    }
}

// Connects from the next port to the service, or to a port where nobody is.
fn connect<C: Context>(slot: &mut Slot<'_>, host: &mut C, work: &mut Work, wrong: bool) {
    let remote =
        IpEndpoint { addr: IpAddress::Ipv4(SERVER), port: if wrong { SERVICE + 1 } else { SERVICE } };
    let local = IpListenEndpoint { addr: None, port: work.next_port() };
    let _ = slot.socket.connect(host, remote, local);
}
