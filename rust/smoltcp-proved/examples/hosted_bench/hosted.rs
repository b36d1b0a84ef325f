// Made from crates/hosted_bench/src/hosted.rt by rust/translate: change it there.
//! The conversations of `sock_bench`, on the hosts of `net_host`: only the sockets that may have changed are looked
//! at.

use core::mem;
use smoltcp_proved::kit::alloc::{AllocError, Global};
use smoltcp_proved::kit::{Vec, vec};
use smoltcp_proved::proved::bench_parts::clock::Clock;
use smoltcp_proved::proved::bench_parts::conversation::{Role, SERVICE, Talk, service};
use smoltcp_proved::proved::bench_parts::digest::Digest;
use smoltcp_proved::proved::bench_parts::random::Random;
use smoltcp_proved::proved::bench_parts::wire::{Fate, Wire, flip};
use smoltcp_proved::proved::bench_parts::work::{
    BUFFER, CLIENT, FAULTS, MOMENTS, PIECE, SERVER, SIZES, Work, answer_len,
};
use smoltcp_proved::proved::host_context::Seeded;
use smoltcp_proved::proved::net_host::{Interface, IpCidr, SocketHandle, SocketSet};
use smoltcp_proved::sockets::Socket;
use smoltcp_proved::sockets::storage::RingBuffer;
use smoltcp_proved::sockets::tcp::{self, State};
use smoltcp_proved::sockets::time::Instant;
use smoltcp_proved::sockets::wire::{IpAddress, IpEndpoint, IpListenEndpoint, Ipv4Address};

// The longest packet.
const PACKET: usize = 1500;

// At most so many packets of a host go out at one moment.
const PACKETS: u32 = 100_000;

// Every so many moments each socket is looked at, as a timer may have closed it.
const ROUND: u32 = 100;

// A host. The set is a type parameter, as the check does not yet state a struct that has one in a field.
struct Host<S> {
    alloc: Global,
    interface: Interface<Seeded>,
    sockets: S,
    handles: Vec<SocketHandle>,
    talks: Vec<Talk>,
    // room for a packet that goes out, and for one that answers
    packet: Vec<u8>,
    reply: Vec<u8>,
    // answers that wait for the host's next turn
    replies: Vec<Vec<u8>>,
    // clients that have no conversation
    idle: Vec<usize>,
}

type Station<'a> = Host<SocketSet<'a, Clock>>;

/// Runs the conversations of hosts of several sizes.
pub fn hosted(
    alloc: Global,
    share: u32,
    source: &[u8],
    random: &mut Random,
    digest: &mut Digest,
) -> Result<(), AllocError> {
    for [sockets, sleepers, conversations] in SIZES {
        let left = conversations.min(1_000_000) * share.min(1000) as usize / 1000;
        let count = sockets.min(1000);
        let mut bytes_a = vec![in alloc; 0u8; count * 2 * BUFFER]?;
        let mut bytes_b = vec![in alloc; 0u8; count * 2 * BUFFER]?;
        let mut client = station(alloc, CLIENT, count, random.word())?;
        let mut server = station(alloc, SERVER, count, random.word())?;
        client.fill(bytes_a.as_mut_slice(), sleepers, Role::Client)?;
        server.fill(bytes_b.as_mut_slice(), 0, Role::Server)?;
        let hosts = (&mut client, &mut server);
        run(alloc, Work::new(left), hosts, source, random, digest)?;
        client.add_to(digest);
        server.add_to(digest);
    }
    Ok(())
}

fn station<'a>(
    alloc: Global,
    address: Ipv4Address,
    count: usize,
    seed: u32,
) -> Result<Station<'a>, AllocError> {
    let mut addresses = Vec::new(alloc);
    addresses.push(IpCidr { address: IpAddress::Ipv4(address), prefix_len: 24 })?;
    let state = u64::from(seed);
    Ok(Host {
        alloc,
        interface: Interface::new(addresses, Seeded { state }),
        sockets: SocketSet::new(alloc, count)?,
        handles: Vec::new(alloc),
        talks: Vec::new(alloc),
        packet: vec![in alloc; 0u8; PACKET]?,
        reply: vec![in alloc; 0u8; PACKET]?,
        replies: Vec::new(alloc),
        idle: Vec::with_capacity(alloc, count)?,
    })
}

// Moment after moment, until all conversations were had.
fn run(
    alloc: Global,
    mut work: Work,
    hosts: (&mut Station<'_>, &mut Station<'_>),
    source: &[u8],
    random: &mut Random,
    digest: &mut Digest,
) -> Result<(), AllocError> {
    let (client, server) = hosts;
    let mut there = Wire::new(alloc, FAULTS);
    let mut back = Wire::new(alloc, FAULTS);
    let mut scratch = vec![in alloc; 0u8; PIECE]?;
    client.wake_sleepers(&mut work);
    for millis in 0..MOMENTS {
        let now = Instant::from_millis(i64::from(millis));
        if millis % ROUND == 0 {
            server.look_at_each(digest)?;
            client.look_at_each(digest)?;
        }
        if !client.begin(&mut work, random, millis) {
            break;
        }
        client.serve(scratch.as_mut_slice(), source, random, digest)?;
        client.pass(server, now, &mut there, random)?;
        server.serve(scratch.as_mut_slice(), source, random, digest)?;
        server.pass(client, now, &mut back, random)?;
    }
    Ok(())
}

impl<'a> Host<SocketSet<'a, Clock>> {
    fn fill(&mut self, bytes: &'a mut [u8], sleepers: usize, role: Role) -> Result<(), AllocError> {
        let mut buffers = bytes.chunks_exact_mut(BUFFER);
        for made in 0..1000usize {
            let (Some(rx), Some(tx)) = (buffers.next(), buffers.next()) else {
                break;
            };
            self.add(rx, tx, if made < sleepers { Role::Sleeper } else { role })?;
        }
        Ok(())
    }

    fn add(&mut self, rx: &'a mut [u8], tx: &'a mut [u8], role: Role) -> Result<(), AllocError> {
        // a socket wants to know that its buffers are no longer
        if rx.len() > BUFFER || tx.len() > BUFFER {
            return Ok(());
        }
        let socket = tcp::Socket::closed(RingBuffer::new(rx), RingBuffer::new(tx), None);
        let Ok(handle) = self.sockets.add(Socket::Tcp(socket)) else {
            return Err(AllocError);
        };
        self.handles.push(handle)?;
        self.talks.push(Talk::new(role))?;
        Ok(())
    }
}

impl Host<SocketSet<'_, Clock>> {
    // A socket that was closed listens, or is idle. The application of one that may have changed reads and writes, from
    // when it is open until it has closed.
    #[inline(always)]
    fn serve(
        &mut self,
        scratch: &mut [u8],
        source: &[u8],
        random: &mut Random,
        digest: &mut Digest,
    ) -> Result<(), AllocError> {
        let mut from = 0usize;
        for _ in 0..=self.talks.len() {
            let Some(place) = self.sockets.touched(from) else {
                break;
            };
            from = place.saturating_add(1);
            match self.state(place) {
                Some(State::Closed) => self.begin_anew(place, digest)?,
                Some(State::SynReceived) => self.await_request(place),
                Some(State::Established | State::CloseWait) => {
                    self.serve_at(place, scratch, source, random, digest);
                }
                _ => {}
            }
        }
        Ok(())
    }

    // A connection was opened here: a socket in TIME-WAIT may have been taken for another one.
    fn await_request(&mut self, place: usize) {
        if let Some(talk) = self.talks.get_mut(place)
            && talk.role == Role::Server
        {
            talk.begin(0, 0);
        }
    }

    // Lets the application of the socket at this place read and write.
    #[inline(always)]
    fn serve_at(
        &mut self,
        place: usize,
        scratch: &mut [u8],
        source: &[u8],
        random: &mut Random,
        digest: &mut Digest,
    ) {
        let (Some(talk), Some(handle)) = (self.talks.get_mut(place), self.handles.get(place)) else {
            return;
        };
        let Some(socket) = self.sockets.tcp_mut(*handle) else {
            return;
        };
        // it is asked again only once its socket took a segment, so it writes all that it has to say
        talk.serve_whole(socket, scratch, source, random, digest);
    }

    fn look_at_each(&mut self, digest: &mut Digest) -> Result<(), AllocError> {
        self.idle.clear();
        for place in 0..self.talks.len() {
            if self.state(place) == Some(State::Closed) {
                self.begin_anew(place, digest)?;
            }
        }
        Ok(())
    }

    fn state(&self, place: usize) -> Option<State> {
        match self.sockets.get(*self.handles.get(place)?)? {
            Socket::Tcp(socket) => Some(socket.state()),
            _ => None,
        }
    }

    // A socket that was closed listens, or is idle.
    fn begin_anew(&mut self, place: usize, digest: &mut Digest) -> Result<(), AllocError> {
        let (Some(talk), Some(handle)) = (self.talks.get_mut(place), self.handles.get(place)) else {
            return Ok(());
        };
        match talk.role {
            Role::Server => {
                talk.begin(0, 0);
                if let Some(socket) = self.sockets.tcp_mut(*handle) {
                    let _ = socket.listen(service());
                }
            }
            Role::Client => {
                talk.add_to(digest);
                self.idle.push(place)?;
            }
            Role::Sleeper => {}
        }
        Ok(())
    }

    // Begins a conversation on each client that has none; whether there are still conversations.
    fn begin(&mut self, work: &mut Work, random: &mut Random, millis: u32) -> bool {
        for _ in 0..work.left {
            let Some(place) = self.idle.pop() else {
                break;
            };
            work.left = work.left.saturating_sub(1);
            let answer = answer_len(random);
            if let Some(talk) = self.talks.get_mut(place) {
                talk.begin(20 + random.below(480) as usize, answer);
            }
            self.connect(place, work, random.happens(20));
        }
        work.left > 0 || millis % ROUND != 0 || self.is_busy()
    }

    fn is_busy(&self) -> bool {
        let mut busy = false;
        for (place, talk) in self.talks.iter().enumerate() {
            busy = busy || (talk.role == Role::Client && self.state(place) != Some(State::Closed));
        }
        busy
    }

    fn wake_sleepers(&mut self, work: &mut Work) {
        for place in 0..self.talks.len() {
            let sleeps = match self.talks.get(place) {
                Some(talk) => talk.role == Role::Sleeper,
                None => false,
            };
            if sleeps {
                self.connect(place, work, false);
            }
        }
    }

    // Connects from the next port to the service, or to a port where nobody is.
    fn connect(&mut self, place: usize, work: &mut Work, wrong: bool) {
        let remote =
            IpEndpoint { addr: IpAddress::Ipv4(SERVER), port: if wrong { SERVICE + 1 } else { SERVICE } };
        let local = IpListenEndpoint { addr: None, port: work.next_port() };
        let Some(handle) = self.handles.get(place) else {
            return;
        };
        if let Some(socket) = self.sockets.tcp_mut(*handle) {
            let _ = socket.connect(self.interface.context(), remote, local);
        }
    }

    fn add_to(&self, digest: &mut Digest) {
        for (place, talk) in self.talks.iter().enumerate() {
            talk.add_to(digest);
            if let Some(state) = self.state(place) {
                digest.bytes(state.name().as_bytes());
            }
        }
    }
}

// The way of packets.
impl Host<SocketSet<'_, Clock>> {
    // Lets what the host says arrive at the other.
    fn pass(
        &mut self,
        to: &mut Station<'_>,
        now: Instant,
        wire: &mut Wire,
        random: &mut Random,
    ) -> Result<(), AllocError> {
        let held = wire.held();
        if !self.replies.is_empty() {
            let empty = Vec::new(self.alloc);
            for reply in mem::replace(&mut self.replies, empty) {
                to.arrive(reply.as_slice(), now, wire, random)?;
            }
        }
        for _ in 0..PACKETS {
            let count = self.emit(now);
            if count == 0 {
                break;
            }
            to.arrive(&self.packet[..count], now, wire, random)?;
        }
        for packet in held {
            to.receive(packet.as_slice(), now)?;
        }
        Ok(())
    }

    // Writes the next packet into the room for it, and answers its length, or 0.
    fn emit(&mut self, now: Instant) -> usize {
        let room = self.packet.as_mut_slice();
        let count = self.interface.emit(&mut self.sockets, now, room);
        count.unwrap_or(0).min(self.packet.len())
    }

    fn arrive(
        &mut self,
        packet: &[u8],
        now: Instant,
        wire: &mut Wire,
        random: &mut Random,
    ) -> Result<(), AllocError> {
        match wire.fate(random) {
            Fate::Lost => Ok(()),
            Fate::Late => wire.hold(Vec::from_slice(self.alloc, packet)?),
            Fate::Twice => {
                self.receive(packet, now)?;
                self.receive(packet, now)
            }
            Fate::Flipped => {
                let mut packet = Vec::from_slice(self.alloc, packet)?;
                flip(&mut packet, random);
                self.receive(packet.as_slice(), now)
            }
            Fate::Arrives => self.receive(packet, now),
        }
    }

    fn receive(&mut self, packet: &[u8], now: Instant) -> Result<(), AllocError> {
        let room = self.reply.as_mut_slice();
        let count =
            self.interface.receive(&mut self.sockets, now, packet, room).unwrap_or(0).min(self.reply.len());
        if count > 0 {
            let reply = Vec::from_slice(self.alloc, &self.reply[..count])?;
            self.replies.push(reply)?;
        }
        Ok(())
    }
}
