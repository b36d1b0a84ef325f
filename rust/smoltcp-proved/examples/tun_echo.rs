//! An echo (port 7, TCP and UDP) and a page (port 80) at 10.9.0.2 on a TUN device of Linux, as `c/echo.c`.
//!
//!     tun_echo DEVICE SECONDS
//!
//! makes the device, which then has to be given the address 10.9.0.1/24 and set up, and ends after so many seconds.
use smoltcp_proved::iface::{Config, Interface, SocketHandle, SocketSet};
use smoltcp_proved::phy::{Device, DeviceCapabilities, Medium, TunTapInterface, wait};
use smoltcp_proved::proved::net_host::GuardSettings;
use smoltcp_proved::socket::tcp::{RecvError, Rules, Socket, State};
use smoltcp_proved::socket::{tcp, udp};
use smoltcp_proved::time::{Duration, Instant};
use smoltcp_proved::wire::{HardwareAddress, IpAddress, IpCidr};
use std::collections::VecDeque;
use std::fs::File;
use std::io::{self, Read};
use std::os::fd::AsRawFd;

const SOCKETS: usize = 16;
const ROOM: usize = 65536;
const KEPT: usize = 4 * ROOM;
const TURN: usize = 64;

const PAGE: &[u8] = b"HTTP/1.1 200 OK\r\nContent-Type: text/plain\r\nContent-Length: 32\r\n\
                      Connection: close\r\n\r\nProved TCP sockets, out of Rust\n";

/// The device of a network: from others the own address is forged.
struct Network(TunTapInterface);

impl Device for Network {
    type RxToken<'a> = <TunTapInterface as Device>::RxToken<'a>;
    type TxToken<'a> = <TunTapInterface as Device>::TxToken<'a>;

    fn receive(&mut self, now: Instant) -> Option<(Self::RxToken<'_>, Self::TxToken<'_>)> {
        self.0.receive(now)
    }

    fn transmit(&mut self, now: Instant) -> Option<Self::TxToken<'_>> {
        self.0.transmit(now)
    }

    fn capabilities(&self) -> DeviceCapabilities {
        let mut capabilities = self.0.capabilities();
        capabilities.loops_back = false;
        capabilities
    }
}

/// A place for one connection after the other, and what was read of it and is not sent yet.
struct Connection {
    handle: SocketHandle,
    port: u16,
    kept: VecDeque<u8>,
}

/// Keeps what has come, up to `KEPT` bytes, and answers how many came. It is read also while nothing can be sent.
fn keep(socket: &mut Socket, kept: &mut VecDeque<u8>) -> Result<usize, RecvError> {
    let room = KEPT - kept.len();
    socket.recv(|bytes| {
        let count = bytes.len().min(room);
        kept.extend(&bytes[..count]);
        (count, count)
    })
}

/// Sends back what comes, and closes behind the last byte.
fn serve_echo(socket: &mut Socket, kept: &mut VecDeque<u8>) {
    for _ in 0..TURN {
        let sent = socket.send_slice(kept.as_slices().0).unwrap_or(0);
        kept.drain(..sent);
        match keep(socket, kept) {
            Ok(1..) => {}
            Err(RecvError::Finished) if kept.is_empty() => return socket.close(),
            _ => break,
        }
    }
    let sent = socket.send_slice(kept.as_slices().0).unwrap_or(0);
    kept.drain(..sent);
}

/// Answers a request that has come whole.
fn serve_page(socket: &mut Socket, kept: &mut VecDeque<u8>) {
    if keep(socket, kept) == Err(RecvError::Finished) {
        socket.close();
    }
    if kept.make_contiguous().ends_with(b"\r\n\r\n") {
        let _ = socket.send_slice(PAGE);
        socket.close();
        kept.clear();
    } else if kept.len() == KEPT {
        socket.abort();
    }
}

/// Sends the datagrams that have come back to where they came from, unless that is an echo too, or a source of
/// characters (RFC 864): two of them would answer each other for ever.
fn echo_datagrams(socket: &mut udp::Socket) {
    let mut data = [0; 1500];
    for _ in 0..TURN {
        let Ok((len, meta)) = socket.recv_slice(&mut data) else { return };
        if ![7, 19].contains(&meta.endpoint.port) {
            let _ = socket.send_slice(&data[..len], meta);
        }
    }
}

fn new_socket() -> Socket<'static> {
    let buffer = || tcp::SocketBuffer::new(vec![0; ROOM]);
    let mut socket = Socket::new(buffer(), buffer());
    // for peers that are not smoltcp, and a wire that loses
    socket.set_rules(Rules::Rfc).expect("a new socket is not open");
    socket.set_keep_alive(Some(Duration::from_secs(15)));
    socket
}

/// A host whose random words nobody can tell.
fn host(device: &mut Network, now: Instant) -> io::Result<Interface> {
    let mut config = Config::new(HardwareAddress::Ip);
    let mut secret = [0; 32];
    File::open("/dev/urandom")?.read_exact(&mut secret)?;
    config.secret = Some(secret);
    let mut iface = Interface::new(config, device, now);
    // ends connections whose peers keep them waiting
    iface.host_mut().set_guards(GuardSettings::new());
    iface.update_ip_addrs(|addrs| {
        addrs.push(IpCidr::new(IpAddress::v4(10, 9, 0, 2), 24)).expect("room for an address");
    });
    Ok(iface)
}

fn main() -> io::Result<()> {
    let args: Vec<String> = std::env::args().collect();
    let [_, name, seconds] = &args[..] else {
        return Err(io::Error::other("usage: tun_echo DEVICE SECONDS"));
    };
    let end = Instant::from_secs(seconds.parse::<i64>().map_err(io::Error::other)?);
    let begin = std::time::Instant::now();
    let now = || Instant::from(begin);
    let mut device = Network(TunTapInterface::new(name, Medium::Ip)?);
    let mut iface = host(&mut device, now())?;

    let mut sockets = SocketSet::new(vec![]);
    let ports = (0..SOCKETS).map(|n| if n < SOCKETS / 2 { 7 } else { 80 });
    let mut connections: Vec<Connection> = ports
        .map(|port| Connection { handle: sockets.add(new_socket()), port, kept: VecDeque::new() })
        .collect();
    let queue = || udp::PacketBuffer::new(vec![udp::PacketMetadata::EMPTY; 64], vec![0; ROOM]);
    let mut datagrams = udp::Socket::new(queue(), queue());
    datagrams.bind(7).map_err(io::Error::other)?;
    let datagrams = sockets.add(datagrams);

    while now() < end {
        iface.poll(now(), &mut device, &mut sockets);
        for Connection { handle, port, kept } in &mut connections {
            let socket = sockets.get_mut::<Socket>(*handle);
            match (socket.state(), *port) {
                (State::Closed, port) => {
                    kept.clear();
                    socket.listen(port).map_err(io::Error::other)?;
                }
                (_, 7) => serve_echo(socket, kept),
                _ => serve_page(socket, kept),
            }
        }
        echo_datagrams(sockets.get_mut(datagrams));
        iface.poll_egress(now(), &mut device, &mut sockets);
        let most = Duration::from_secs(1);
        wait(device.0.as_raw_fd(), Some(iface.poll_delay(now(), &sockets).unwrap_or(most).min(most)))?;
    }
    Ok(())
}
