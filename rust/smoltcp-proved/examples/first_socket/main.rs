// Made from crates/first_socket/src/main.rt by rust/translate: change it there.
// What only clauses name is unused here, and some forms are those that a prover reads best.
#![allow(unused_imports, unused_variables, unused_must_use, dead_code, clippy::all)]
//! A first program: a client asks, a server answers in capitals, and each closes. Packets pass as bytes, in memory.

use smoltcp_proved::kit::{HostRuntime, Vec};
use smoltcp_proved::proved::host_link::Link;
use smoltcp_proved::proved::net_host::{Interface, IpCidr, Secret, SocketHandle, SocketSet};
use smoltcp_proved::sockets::Socket;
use smoltcp_proved::sockets::storage::RingBuffer;
use smoltcp_proved::sockets::tcp::{self, State};
use smoltcp_proved::sockets::time::Instant;
use smoltcp_proved::sockets::wire::{IpAddress, IpEndpoint, IpListenEndpoint, Ipv4Address};
use std::process::ExitCode;

const CLIENT: IpAddress = IpAddress::Ipv4(smoltcp_proved::kit::ipv4([10, 0, 0, 1]));

const SERVER: IpAddress = IpAddress::Ipv4(smoltcp_proved::kit::ipv4([10, 0, 0, 2]));

type Host<'a> = (Interface<Secret>, SocketSet<'a>, SocketHandle);

// 1. Two sockets, each over two buffers.
fn main() -> ExitCode {
    let rt = HostRuntime;
    let (mut rx_a, mut tx_a) = ([0u8; 64], [0u8; 64]);
    let (mut rx_b, mut tx_b) = ([0u8; 64], [0u8; 64]);
    let client = tcp::Socket::new(RingBuffer::new(&mut rx_a), RingBuffer::new(&mut tx_a));
    let server = tcp::Socket::new(RingBuffer::new(&mut rx_b), RingBuffer::new(&mut tx_b));
    match run(&rt, client, server) {
        Some(()) => ExitCode::SUCCESS,
        None => ExitCode::FAILURE,
    }
}

// 2. A host: its address, its secret, which one on a network draws anew at each start, and its socket in a set of one.
fn host<'a>(rt: &HostRuntime, address: IpAddress, socket: tcp::Socket<'a>) -> Option<Host<'a>> {
    let cidr = IpCidr { address, prefix_len: 24 };
    let addresses = Vec::from_array(rt.alloc(), [cidr]).ok()?;
    let mut sockets = SocketSet::new(rt.alloc(), 1).ok()?;
    let handle = sockets.add(Socket::Tcp(socket)).ok()?;
    let interface = Interface::new(addresses, Secret::new([7; 32]));
    Some((interface, sockets, handle))
}

// 3. The server listens, the client connects, and time passes until both are closed. None where memory or time is over.
fn run(rt: &HostRuntime, client: tcp::Socket<'_>, mut server: tcp::Socket<'_>) -> Option<()> {
    let (addr, port) = (SERVER, 7);
    let _ = server.listen(here(port));
    let (mut a, mut on_a, client) = host(rt, CLIENT, client)?;
    let (mut b, mut on_b, server) = host(rt, SERVER, server)?;
    if let Some(socket) = on_a.tcp_mut(client) {
        let _ = socket.connect(a.context(), IpEndpoint { addr, port }, here(49152));
    }
    let (mut end_a, mut end_b) = (Link::new(), Link::new());
    let (mut heard, mut said) = ([0u8; 1500], [0u8; 1500]);
    for millis in 0..60_000u32 {
        let now = Instant::from_micros(i64::from(millis) * 1000);
        if !(ask(rt, on_a.tcp_mut(client)) | answer(rt, on_b.tcp_mut(server))) {
            return Some(());
        }
        let _ = a.poll(&mut on_a, now, &mut end_a, &mut heard, &mut said);
        let _ = b.poll(&mut on_b, now, &mut end_b, &mut heard, &mut said);
        end_a.pass(&mut end_b);
    }
    None
}

fn here(port: u16) -> IpListenEndpoint {
    IpListenEndpoint { addr: None, port }
}

// 4. The applications never wait: each does what it can, and says whether its socket is open.
fn ask(rt: &HostRuntime, socket: Option<&mut tcp::Socket<'_>>) -> bool {
    let Some(socket) = socket else { return false };
    if socket.state() == State::Established {
        let _ = socket.send_slice(b"hello");
        socket.close();
    }
    let _ = read(rt, "the client reads: ", socket);
    socket.is_open()
}

fn answer(rt: &HostRuntime, socket: Option<&mut tcp::Socket<'_>>) -> bool {
    let Some(socket) = socket else { return false };
    let (mut bytes, count) = read(rt, "the server reads: ", socket);
    bytes.make_ascii_uppercase();
    let _ = socket.send_slice(&bytes[..count.min(64)]);
    if socket.state() == State::CloseWait {
        socket.close();
    }
    socket.is_open()
}

fn read(rt: &HostRuntime, who: &str, socket: &mut tcp::Socket<'_>) -> ([u8; 64], usize) {
    let mut bytes = [0u8; 64];
    let count = socket.recv_slice(&mut bytes).unwrap_or(0);
    if count > 0 {
        let _ = rt.println(format_args!("{who}{}", bytes[..count].escape_ascii()));
    }
    (bytes, count)
}
