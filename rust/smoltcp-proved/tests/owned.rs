//! Sockets that own their memory: they may be moved and sent to another thread, and leave nothing behind.
#![cfg(feature = "alloc")]
mod common;
use common::*;
use smoltcp_proved::tcp::{Socket, SocketBuffer, State};
use smoltcp_proved::{icmp, raw, udp};
use std::alloc::{GlobalAlloc, Layout, System};
use std::cell::Cell;

/// The system's heap, which counts the bytes that a thread holds.
struct Counted;

thread_local! {
    static HELD: Cell<isize> = const { Cell::new(0) };
}

fn count(change: isize) {
    let _ = HELD.try_with(|held| held.set(held.get() + change));
}

// SAFETY: it answers what the system's heap answers.
unsafe impl GlobalAlloc for Counted {
    unsafe fn alloc(&self, layout: Layout) -> *mut u8 {
        count(layout.size() as isize);
        // SAFETY: the caller's.
        unsafe { System.alloc(layout) }
    }

    unsafe fn dealloc(&self, at: *mut u8, layout: Layout) {
        count(-(layout.size() as isize));
        // SAFETY: the caller's.
        unsafe { System.dealloc(at, layout) }
    }
}

#[global_allocator]
static HEAP: Counted = Counted;

fn held() -> isize {
    HELD.with(Cell::get)
}

/// Two sockets that have a connection, one of which has bytes to read.
fn connected() -> [Host<'static>; 2] {
    let host = |last, word| Host {
        socket: Socket::new(SocketBuffer::new(vec![0; 64]), SocketBuffer::new(vec![0; 64])),
        cx: context(last, word),
    };
    let (mut a, mut b) = (host(1, 1000), host(2, 5000));
    b.socket.listen(80).expect("a closed socket listens");
    a.socket.connect(&mut a.cx, (B, 80), 49152).expect("a closed socket connects");
    settle(&mut a, &mut b);
    assert_eq!(a.socket.send_slice(b"hello"), Ok(5));
    settle(&mut a, &mut b);
    [a, b]
}

#[test]
fn moved_and_sent() {
    let mut hosts = Vec::new();
    for _ in 0..20 {
        hosts.extend(connected()); // the vector grows, and its hosts move
    }
    hosts.rotate_left(7);
    let hosts = std::thread::spawn(move || {
        for host in &mut hosts {
            let was = host.socket.recv_queue();
            assert_eq!(
                host.socket.recv(|bytes| (bytes.len(), bytes.to_vec())).map(|bytes| bytes.len()),
                Ok(was)
            );
            assert!(was == 0 || was == 5);
        }
        hosts
    });
    let mut hosts = hosts.join().expect("no panic");
    hosts.rotate_right(7);
    for pair in hosts.chunks_mut(2) {
        let [a, b] = pair else { panic!("an odd one") };
        assert_eq!(b.socket.send_slice(b"back"), Ok(4));
        settle(a, b);
        assert_eq!(a.socket.peek(10), Ok(&b"back"[..]));
        assert_eq!((a.socket.state(), b.socket.state()), (State::Established, State::Established));
    }
}

/// All is freed where a socket ends, open or not; nothing before.
#[test]
fn nothing_is_left() {
    drop(connected()); // whatever the test's own machinery keeps
    let before = held();
    let hosts = connected();
    assert!(held() >= before + 2 * 2 * 64);
    drop(hosts);
    assert_eq!(held(), before);
    {
        let queue = || udp::PacketBuffer::new(vec![udp::PacketMetadata::EMPTY; 8], vec![0; 1024]);
        let mut socket = udp::Socket::new(queue(), queue());
        socket.bind(53).expect("a closed socket opens");
        assert_eq!(socket.send_with(5, (A, 53), |bytes| bytes.len()), Ok(5));
        assert!(held() > before + 2 * 1024);
        assert_eq!((socket.packet_send_capacity(), socket.payload_recv_capacity()), (8, 1024));
        let _unused = queue();
    }
    {
        let queue = || icmp::PacketBuffer::new(vec![icmp::PacketMetadata::EMPTY; 8], vec![0; 1024]);
        assert!(icmp::Socket::new(queue(), queue()).recv().is_err());
        let queue = || raw::PacketBuffer::new(vec![raw::PacketMetadata::EMPTY; 8], vec![0; 1024]);
        assert!(raw::Socket::new(None, None, queue(), queue()).peek().is_err());
    }
    assert_eq!(held(), before);
}

/// Memory of its own under lent queues, and the other way round.
#[test]
fn half_of_it() {
    let (mut places, mut bytes) = ([udp::PacketMetadata::EMPTY; 2], [0; 100]);
    let owned = || udp::PacketBuffer::new(vec![udp::PacketMetadata::EMPTY; 8], vec![0; 1024]);
    let mut socket = udp::Socket::new(udp::PacketBuffer::new(&mut places[..], &mut bytes[..]), owned());
    assert_eq!((socket.packet_recv_capacity(), socket.bind(53)), (2, Ok(())));
    let _ = bytes[0]; // free again
}
