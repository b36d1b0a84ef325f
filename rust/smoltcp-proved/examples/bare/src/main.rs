//! Two hosts without any system: one sends the other 100 KB over TCP, on a wire in memory, with a clock of its own.
//!
//! The exit code, by semihosting: 0 where all came through, 1 after a panic, 2 after a fault, 3 where it took too long.
//! There is no heap: buffers are lent, and what hosts and sets keep stands in them, with room for as many sockets and
//! for as long packets as `.cargo/config.toml` says.
#![no_std]
#![no_main]
#![deny(unsafe_code)]

#[allow(unsafe_code)]
mod start;

use core::cell::RefCell;
use core::fmt::Write;
use smoltcp_proved::iface::{Config, Interface, PollResult, SocketHandle, SocketSet, SocketStorage};
use smoltcp_proved::phy::{Device, DeviceCapabilities, RxToken, TxToken};
use smoltcp_proved::socket::tcp;
use smoltcp_proved::time::{Duration, Instant};
use smoltcp_proved::wire::{HardwareAddress, IpAddress, IpCidr};

const TOTAL: usize = 100_000;
const MTU: usize = 576;
const PLACES: usize = 8;

/// One direction of the wire.
struct Way {
    packets: [[u8; MTU]; PLACES],
    lens: [usize; PLACES],
    first: usize,
    count: usize,
}

impl Way {
    const EMPTY: Way = Way { packets: [[0; MTU]; PLACES], lens: [0; PLACES], first: 0, count: 0 };
}

/// One end of the wire.
struct End<'w> {
    arrives: &'w RefCell<Way>,
    leaves: &'w RefCell<Way>,
}

struct Arrived<'w>(&'w RefCell<Way>);

impl RxToken for Arrived<'_> {
    fn consume<R, F: FnOnce(&[u8]) -> R>(self, f: F) -> R {
        let way = &mut *self.0.borrow_mut();
        let place = way.first;
        (way.first, way.count) = ((place + 1) % PLACES, way.count - 1);
        f(&way.packets[place][..way.lens[place]])
    }
}

struct Room<'w>(&'w RefCell<Way>);

impl TxToken for Room<'_> {
    fn consume<R, F: FnOnce(&mut [u8]) -> R>(self, len: usize, f: F) -> R {
        let way = &mut *self.0.borrow_mut();
        let place = (way.first + way.count) % PLACES;
        (way.lens[place], way.count) = (len, way.count + 1);
        f(&mut way.packets[place][..len])
    }
}

impl Device for End<'_> {
    type RxToken<'a>
        = Arrived<'a>
    where
        Self: 'a;
    type TxToken<'a>
        = Room<'a>
    where
        Self: 'a;

    fn receive(&mut self, now: Instant) -> Option<(Arrived<'_>, Room<'_>)> {
        if self.arrives.borrow().count == 0 {
            return None;
        }
        let arrives = self.arrives;
        Some((Arrived(arrives), self.transmit(now)?))
    }

    fn transmit(&mut self, _: Instant) -> Option<Room<'_>> {
        (self.leaves.borrow().count < PLACES).then_some(Room(self.leaves))
    }

    fn capabilities(&self) -> DeviceCapabilities {
        let mut capabilities = DeviceCapabilities::default();
        capabilities.max_transmission_unit = MTU;
        capabilities.loops_back = false;
        capabilities
    }
}

/// A host with one socket, on its end of the wire.
struct Host<'a> {
    iface: Interface,
    device: End<'a>,
    sockets: SocketSet<'a>,
    handle: SocketHandle,
}

type Lent<'a> = (&'a mut [SocketStorage<'a>], &'a mut [u8], &'a mut [u8]);

impl<'a> Host<'a> {
    fn new(last: u8, mut device: End<'a>, (places, rx, tx): Lent<'a>) -> Host<'a> {
        let mut config = Config::new(HardwareAddress::Ip);
        config.random_seed = u64::from(last); // a host on a network has a `secret`
        let mut iface = Interface::new(config, &mut device, Instant::ZERO);
        let own = IpCidr::new(IpAddress::v4(10, 0, 0, last), 24);
        iface.update_ip_addrs(|addrs| addrs.push(own).expect("room for an address"));
        let mut sockets = SocketSet::new(places);
        let socket = tcp::Socket::new(tcp::SocketBuffer::new(rx), tcp::SocketBuffer::new(tx));
        let handle = sockets.add(socket);
        Host { iface, device, sockets, handle }
    }

    fn poll(&mut self, now: Instant) -> bool {
        self.iface.poll(now, &mut self.device, &mut self.sockets) != PollResult::None
    }

    fn wait(&mut self, now: Instant) -> Duration {
        self.iface.poll_delay(now, &self.sockets).unwrap_or(Duration::from_secs(1))
    }

    fn socket(&mut self) -> &mut tcp::Socket<'a> {
        self.sockets.get_mut(self.handle)
    }
}

// The byte at this place of the stream.
fn byte(place: usize) -> u8 {
    (place % 251) as u8
}

/// What it returns is the exit code.
fn main() -> u32 {
    let wire = [RefCell::new(Way::EMPTY), RefCell::new(Way::EMPTY)];
    let (mut places, mut buffers) = ([[SocketStorage::EMPTY], [SocketStorage::EMPTY]], [[0; 2048]; 4]);
    let ([one, other], [a, b, c, d]) = (&mut places, &mut buffers);
    let mut server = Host::new(1, End { arrives: &wire[0], leaves: &wire[1] }, (one, a, b));
    let mut client = Host::new(2, End { arrives: &wire[1], leaves: &wire[0] }, (other, c, d));
    server.socket().listen(80).expect("a closed socket listens");
    let Host { iface, sockets, handle, .. } = &mut client;
    let to = (IpAddress::v4(10, 0, 0, 1), 80);
    sockets.get_mut::<tcp::Socket>(*handle).connect(iface.context(), to, 49152).expect("connects");

    let (mut now, mut sent, mut got, mut polls) = (Instant::ZERO, 0, 0, 0);
    while got < TOTAL && now < Instant::from_secs(60) {
        let did = client.poll(now) | server.poll(now);
        polls += 1;
        if client.socket().can_send() {
            let put = |room: &mut [u8]| {
                let len = room.len().min(TOTAL - sent);
                room[..len].iter_mut().enumerate().for_each(|(place, room)| *room = byte(sent + place));
                (len, len)
            };
            sent += client.socket().send(put).expect("an open socket sends");
        }
        if server.socket().can_recv() {
            let right = |bytes: &[u8]| bytes.iter().enumerate().all(|(place, b)| *b == byte(got + place));
            let (len, right) = server.socket().recv(|b| (b.len(), (b.len(), right(b)))).expect("bytes are there");
            assert!(right, "other bytes than were sent");
            got += len;
        }
        if !did {
            now += client.wait(now).min(server.wait(now)).max(Duration::from_millis(1));
        }
    }
    let each = size_of::<Interface>() + size_of::<SocketSet<'_>>();
    let _ = writeln!(start::Console, "{got} bytes in {polls} polls, at {now}; a host and its set take {each} bytes");
    if got == TOTAL { 0 } else { 3 }
}
