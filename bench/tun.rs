//! A server on a TUN device, over the sockets without their proofs (bench/plain): port 80 sends as many bytes as
//! `GET /bytes/N` asks for, port 9 takes what comes. live/rate --plain measures it beside Linux.
//!
//!     tun DEVICE ADDRESS SECONDS RULES BUFFER
//!
//! RULES is rfc or smoltcp; each buffer has BUFFER KB. It says `up` once the device is there.
use smoltcp_proved::proved::segment_wire;
use smoltcp_proved::proved::smoltcp_socket::storage::RingBuffer;
use smoltcp_proved::proved::smoltcp_socket::tcp::{Rules, Socket, State};
use smoltcp_proved::proved::smoltcp_socket::time::{Duration, Instant};
use smoltcp_proved::proved::smoltcp_socket::wire::*;
use smoltcp_proved::proved::smoltcp_socket::{Context, PollAt};
use std::ffi::{c_int, c_long, c_ulong, c_void};
use std::fs::{File, OpenOptions};
use std::io::{Read, Write};
use std::os::fd::AsRawFd;
use std::os::unix::fs::OpenOptionsExt;
use std::sync::OnceLock;

const MTU: usize = 1500;
const BURST: usize = 64; // packets that are read, and that a socket sends, before the others' turn
const LONGEST_WAIT: i64 = 100_000; // microseconds
const NONBLOCKING: c_int = 0o4000;
const TUNSETIFF: c_ulong = 0x4004_54ca;
const TUN_WITHOUT_HEADER: [u8; 2] = 0x1001u16.to_ne_bytes();

unsafe extern "C" {
    fn ioctl(file: c_int, request: c_ulong, argument: *mut c_void) -> c_int;
    fn ppoll(files: *mut [c_int; 2], count: c_ulong, wait: *const [c_long; 2], mask: *const c_void) -> c_int;
}

fn device(name: &str) -> File {
    let tun = OpenOptions::new().read(true).write(true).custom_flags(NONBLOCKING).open("/dev/net/tun");
    let tun = tun.expect("a TUN device");
    let mut request = [0u8; 40];
    request[..name.len()].copy_from_slice(name.as_bytes());
    request[16..18].copy_from_slice(&TUN_WITHOUT_HEADER);
    // SAFETY: the request is as long as a struct ifreq.
    let answer = unsafe { ioctl(tun.as_raw_fd(), TUNSETIFF, request.as_mut_ptr().cast()) };
    assert_eq!(answer, 0, "no device {name}");
    tun
}

fn wait(tun: &File, micros: i64) {
    const POLLIN: c_int = 1; // of the two halves of the second word the first is what is waited for
    let mut file = [tun.as_raw_fd(), POLLIN];
    let time = [0, micros * 1000];
    // SAFETY: one struct pollfd, and a struct timespec below a second.
    unsafe { ppoll(&mut file, 1, &time, std::ptr::null()) };
}

static START: OnceLock<std::time::Instant> = OnceLock::new();

fn micros() -> i64 {
    START.get_or_init(std::time::Instant::now).elapsed().as_micros() as i64
}

fn stamp() -> u32 {
    (micros() / 1000) as u32
}

struct Host {
    now: i64,
    addr: Ipv4Address,
    word: u64,
}

impl Context for Host {
    fn now(&self) -> Instant {
        Instant::from_micros(self.now)
    }
    fn has_ip_addr(&self, addr: IpAddress) -> bool {
        addr == IpAddress::Ipv4(self.addr)
    }
    fn get_source_address(&self, _dst: &IpAddress) -> Option<IpAddress> {
        Some(IpAddress::Ipv4(self.addr))
    }
    fn get_source_address_ipv4(&self, _dst: &Ipv4Address) -> Option<Ipv4Address> {
        Some(self.addr)
    }
    fn get_source_address_ipv6(&self, _dst: &Ipv6Address) -> Ipv6Address {
        Ipv6Address::UNSPECIFIED
    }
    fn is_broadcast(&self, _addr: &IpAddress) -> bool {
        false
    }
    fn ip_mtu(&self) -> usize {
        MTU
    }
    fn checksum_caps(&self) -> ChecksumCapabilities {
        ChecksumCapabilities::default()
    }
    fn rand_u32(&mut self) -> u32 {
        self.word = self.word.wrapping_mul(6364136223846793005).wrapping_add(1442695040888963407);
        (self.word >> 33) as u32
    }
}

fn packet_of(host: &Host, ip: &IpRepr, repr: &TcpRepr) -> Vec<u8> {
    let mut bytes = vec![0; ip.header_len() + ip.payload_len()];
    segment_wire::packet::emit_tcp(ip, repr, &mut bytes, &host.checksum_caps());
    bytes
}

/// A socket that listens, and what it has still to send.
struct Service<'a> {
    socket: Socket<'a>,
    port: u16,
    request: Vec<u8>,
    left: Option<usize>,
}

impl Service<'_> {
    fn listen(&mut self) {
        (self.request, self.left) = (Vec::new(), None);
        let _ = self.socket.listen(IpListenEndpoint { addr: None, port: self.port });
    }

    /// Hears a packet, and answers what the socket says at once.
    fn hear(&mut self, host: &mut Host, packet: &[u8]) -> Option<Vec<u8>> {
        let caps = host.checksum_caps();
        let v4 = Ipv4Packet::new_checked(packet).ok()?;
        let ip = IpRepr::Ipv4(Ipv4Repr::parse(&v4, &caps).ok()?);
        let repr = segment_wire::tcp::parse(v4.payload(), &ip.src_addr(), &ip.dst_addr(), &caps).ok()?;
        if !self.socket.accepts(host, &ip, &repr) {
            return None;
        }
        let (ip, repr) = self.socket.process(host, &ip, &repr)?;
        Some(packet_of(host, &ip, &repr))
    }

    fn is_due(&self, host: &Host) -> bool {
        match self.socket.poll_at(host) {
            PollAt::Now => true,
            PollAt::Time(at) => at.micros <= host.now,
            PollAt::Ingress => false,
        }
    }

    fn speak(&mut self, host: &mut Host) -> Option<Vec<u8>> {
        let mut packet = None;
        let _ = self.socket.dispatch(host, |host: &mut Host, (ip, repr): (IpRepr, TcpRepr)| {
            packet = Some(packet_of(host, &ip, &repr));
            Ok::<(), ()>(())
        });
        packet
    }

    fn serve(&mut self, data: &[u8], room: &mut [u8]) {
        while let Ok(count @ 1..) = self.socket.recv_slice(room) {
            if self.port == 80 {
                self.request.extend_from_slice(&room[..count]);
            }
        }
        if self.left.is_none() && self.request.ends_with(b"\r\n\r\n") {
            let text = String::from_utf8_lossy(&self.request);
            let count = text.split("/bytes/").nth(1).and_then(|rest| rest.split(' ').next()?.parse().ok());
            self.left = Some(count.unwrap_or(0));
        }
        while let Some(left @ 1..) = self.left {
            match self.socket.send_slice(&data[..data.len().min(left)]) {
                Ok(count @ 1..) => self.left = Some(left - count),
                _ => break,
            }
        }
        match (self.socket.state(), self.left) {
            (State::CloseWait, _) | (State::Established, Some(0)) => self.socket.close(),
            (State::Closed, _) => self.listen(),
            (State::TimeWait, _) => {
                self.socket.abort();
            }
            _ => {}
        }
    }
}

fn main() {
    let words: Vec<String> = std::env::args().skip(1).collect();
    let octets: Vec<u8> = words[1].split('.').map(|part| part.parse().expect("an octet")).collect();
    let (seconds, kb): (i64, usize) = (words[2].parse().expect("seconds"), words[4].parse().expect("KB"));
    let mut tun = device(&words[0]);
    println!("up");
    let addr = Ipv4Address::from(<[u8; 4]>::try_from(octets).expect("four octets"));
    let mut host = Host { now: micros(), addr, word: u64::from(std::process::id()) };
    let mut buffers = vec![0u8; 4 * kb << 10];
    let mut pieces = buffers.chunks_exact_mut(kb << 10);
    let mut services = [80u16, 9].map(|port| {
        let (rx, tx) = (pieces.next().expect("room"), pieces.next().expect("room"));
        let mut socket = Socket::new(RingBuffer::new(rx), RingBuffer::new(tx));
        if words[3] == "rfc" {
            socket.set_rules(Rules::Rfc).expect("a new socket is not open");
        }
        socket.set_min_rto(Duration::from_millis(200));
        socket.set_tsval_generator(Some(stamp));
        let mut service = Service { socket, port, request: Vec::new(), left: None };
        service.listen();
        service
    });
    let (data, mut room, mut packet) = (vec![7u8; 1 << 16], vec![0u8; 1 << 16], [0u8; 65536]);
    while micros() < seconds * 1_000_000 {
        let mut idle = true;
        for _ in 0..BURST {
            let Ok(len) = tun.read(&mut packet) else { break };
            (idle, host.now) = (false, micros());
            for reply in services.iter_mut().filter_map(|service| service.hear(&mut host, &packet[..len])) {
                let _ = tun.write(&reply);
            }
        }
        host.now = micros();
        for service in &mut services {
            service.serve(&data, &mut room);
            for _ in 0..BURST {
                if !service.is_due(&host) {
                    break;
                }
                let Some(bytes) = service.speak(&mut host) else { break };
                idle = false;
                let _ = tun.write(&bytes);
            }
        }
        if idle {
            let moments = services.iter().map(|service| match service.socket.poll_at(&host) {
                PollAt::Now => 0,
                PollAt::Time(at) => at.micros - micros(),
                PollAt::Ingress => LONGEST_WAIT,
            });
            wait(&tun, moments.min().unwrap_or(LONGEST_WAIT).clamp(0, LONGEST_WAIT));
        }
    }
}
