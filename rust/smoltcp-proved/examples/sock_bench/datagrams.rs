// Made from crates/sock_bench/src/datagrams.rt by rust/translate: change it there.
//! Many datagrams between two hosts, over UDP, ICMP and raw sockets: small ones most of them, through queues that are
//! often full.

use core::slice::IterMut;
use smoltcp_proved::kit::alloc::{AllocError, Global};
use smoltcp_proved::kit::{Vec, vec};
use smoltcp_proved::proved::bench_parts::digest::Digest;
use smoltcp_proved::proved::bench_parts::random::Random;
use smoltcp_proved::proved::host_context::{Interface, Outbox, Seeded, take_packets};
use smoltcp_proved::proved::segment_wire::packet;
use smoltcp_proved::proved::smoltcp_socket::storage::PacketBuffer;
use smoltcp_proved::proved::smoltcp_socket::udp::UdpMetadata;
use smoltcp_proved::proved::smoltcp_socket::wire::{
    IcmpRepr, Icmpv4Repr, IpAddress, IpEndpoint, IpListenEndpoint, IpProtocol, IpRepr, IpVersion,
    Ipv4Address, Ipv4Repr, UdpRepr,
};
use smoltcp_proved::proved::smoltcp_socket::{Context, PollAt, icmp, raw, udp};

const HERE: Ipv4Address = smoltcp_proved::kit::ipv4([10, 0, 0, 1]);

const THERE: Ipv4Address = smoltcp_proved::kit::ipv4([10, 0, 0, 2]);

// The protocol of the raw packets (RFC 3692).
const EXPERIMENT: IpProtocol = IpProtocol::Unknown(253);

// How many UDP sockets a host has.
const SOCKETS: usize = 8;

// The ports of these begin here.
const PORT: u16 = 1000;

// How many moments the job takes.
const MOMENTS: u32 = 90_000;

// The longest payload.
const LONGEST: usize = 1460;

// Places and bytes of the queues of each socket.
const SIZES: [[usize; 2]; SOCKETS] =
    [[4, 1024], [8, 2000], [16, 4096], [64, 16_384], [4, 8192], [8, 1500], [16, 3333], [64, 8192]];

type Host = Interface<Seeded, Outbox>;

// A host, its sockets, and how many packets came for none.
struct Node<'a> {
    host: Host,
    udps: Vec<udp::Socket<'a>>,
    icmp: icmp::Socket<'a>,
    raw: raw::Socket<'a>,
    refused: u64,
}

// The places and bytes of the queues of a host's sockets.
struct Memory {
    udp_places: Vec<Vec<udp::PacketMetadata>>,
    icmp_rx: Vec<icmp::PacketMetadata>,
    icmp_tx: Vec<icmp::PacketMetadata>,
    raw_rx: Vec<raw::PacketMetadata>,
    raw_tx: Vec<raw::PacketMetadata>,
    bytes: Vec<Vec<u8>>,
}

/// Runs the job, and adds to the digest what each socket read.
pub fn datagrams(
    alloc: Global,
    share: u32,
    source: &[u8],
    random: &mut Random,
    digest: &mut Digest,
) -> Result<(), AllocError> {
    let (mut memory_a, mut memory_b) = (Memory::new(alloc)?, Memory::new(alloc)?);
    let (Some(mut a), Some(mut b)) =
        (Node::new(alloc, HERE, &mut memory_a)?, Node::new(alloc, THERE, &mut memory_b)?)
    else {
        return Ok(());
    };
    let moments = MOMENTS / 1000 * share.min(1000);
    for now in 0..moments {
        a.host.set_millis(now);
        b.host.set_millis(now);
        a.send(THERE, source, random, digest);
        b.send(HERE, source, random, digest);
        a.dispatch()?;
        b.receive_from(&mut a)?;
        b.read(random, digest);
        b.dispatch()?;
        a.receive_from(&mut b)?;
        a.read(random, digest);
    }
    digest.number(a.refused);
    digest.number(b.refused);
    Ok(())
}

impl Memory {
    fn new(alloc: Global) -> Result<Memory, AllocError> {
        let mut udp_places = Vec::new(alloc);
        let mut bytes = Vec::new(alloc);
        for [places, size] in SIZES {
            for _ in 0..2 {
                udp_places.push(vec![in alloc; udp::PacketMetadata::EMPTY; places]?)?;
                bytes.push(vec![in alloc; 0u8; size]?)?;
            }
        }
        for _ in 0..4 {
            bytes.push(vec![in alloc; 0u8; 4096]?)?;
        }
        Ok(Memory {
            udp_places,
            icmp_rx: vec![in alloc; icmp::PacketMetadata::EMPTY; 8]?,
            icmp_tx: vec![in alloc; icmp::PacketMetadata::EMPTY; 8]?,
            raw_rx: vec![in alloc; raw::PacketMetadata::EMPTY; 8]?,
            raw_tx: vec![in alloc; raw::PacketMetadata::EMPTY; 8]?,
            bytes,
        })
    }
}

impl<'a> Node<'a> {
    // A host with its sockets, all of them open.
    fn new(alloc: Global, addr: Ipv4Address, memory: &'a mut Memory) -> Result<Option<Node<'a>>, AllocError> {
        let Memory { udp_places, icmp_rx, icmp_tx, raw_rx, raw_tx, bytes } = memory;
        let mut bytes = bytes.iter_mut();
        let udps = udp_sockets(alloc, udp_places, &mut bytes)?;
        let (Some(icmp_in), Some(icmp_out)) = (bytes.next(), bytes.next()) else {
            return Ok(None);
        };
        let (Some(raw_in), Some(raw_out)) = (bytes.next(), bytes.next()) else {
            return Ok(None);
        };
        Ok(Some(Node {
            host: Interface::new(addr, Seeded { state: 1 }, Outbox::new(alloc)),
            udps,
            icmp: icmp_socket((icmp_rx, icmp_in), (icmp_tx, icmp_out)),
            raw: raw_socket((raw_rx, raw_in), (raw_tx, raw_out)),
            refused: 0,
        }))
    }
}

// The UDP sockets, each over two of the places and two of the bytes, and each bound to its port.
fn udp_sockets<'a>(
    alloc: Global,
    places: &'a mut Vec<Vec<udp::PacketMetadata>>,
    bytes: &mut IterMut<'a, Vec<u8>>,
) -> Result<Vec<udp::Socket<'a>>, AllocError> {
    let mut udps = Vec::new(alloc);
    let mut places = places.iter_mut();
    for i in 0..SOCKETS as u16 {
        let (Some(rx), Some(tx)) = (bytes.next(), bytes.next()) else {
            break;
        };
        let (Some(rx_places), Some(tx_places)) = (places.next(), places.next()) else {
            break;
        };
        let rx = PacketBuffer::new(rx_places.as_mut_slice(), rx.as_mut_slice());
        let tx = PacketBuffer::new(tx_places.as_mut_slice(), tx.as_mut_slice());
        let mut socket = udp::Socket::new(rx, tx);
        let _ = socket.bind(IpListenEndpoint { addr: None, port: PORT + i });
        udps.push(socket)?;
    }
    Ok(udps)
}

fn icmp_socket<'a>(
    rx: (&'a mut Vec<icmp::PacketMetadata>, &'a mut Vec<u8>),
    tx: (&'a mut Vec<icmp::PacketMetadata>, &'a mut Vec<u8>),
) -> icmp::Socket<'a> {
    let rx = PacketBuffer::new(rx.0.as_mut_slice(), rx.1.as_mut_slice());
    let tx = PacketBuffer::new(tx.0.as_mut_slice(), tx.1.as_mut_slice());
    let mut socket = icmp::Socket::new(rx, tx);
    let _ = socket.bind(icmp::Endpoint::Ident(7));
    socket
}

fn raw_socket<'a>(
    rx: (&'a mut Vec<raw::PacketMetadata>, &'a mut Vec<u8>),
    tx: (&'a mut Vec<raw::PacketMetadata>, &'a mut Vec<u8>),
) -> raw::Socket<'a> {
    let rx = PacketBuffer::new(rx.0.as_mut_slice(), rx.1.as_mut_slice());
    let tx = PacketBuffer::new(tx.0.as_mut_slice(), tx.1.as_mut_slice());
    raw::Socket::new(Some(IpVersion::Ipv4), Some(EXPERIMENT), rx, tx)
}

// 20 to 200 bytes, and of some up to 1,460.
fn payload<'b>(source: &'b [u8], random: &mut Random) -> &'b [u8] {
    let most = if random.happens(60) { LONGEST } else { 200 };
    random.piece(source, most)
}

// What the applications send.
impl Node<'_> {
    fn send(&mut self, to: Ipv4Address, source: &[u8], random: &mut Random, digest: &mut Digest) {
        for socket in &mut self.udps {
            for _ in 0..random.below(6) {
                let meta = UdpMetadata::from_endpoint(IpEndpoint {
                    addr: IpAddress::Ipv4(to),
                    port: PORT + random.below(9) as u16,
                });
                let sent = socket.send_slice(payload(source, random), meta);
                digest.number(u64::from(sent.is_ok()));
            }
        }
        self.ping(to, payload(source, random));
        self.send_raw(to, payload(source, random));
    }

    fn ping(&mut self, to: Ipv4Address, body: &[u8]) {
        let message = Icmpv4Repr::EchoRequest { ident: 7, seq_no: 1, body };
        let mut bytes = [0u8; LONGEST + 8];
        let len = message.buffer_len();
        if len <= LONGEST + 8 {
            message.emit(&mut bytes[..len], &self.host.checksum_caps());
            let _ = self.icmp.send_slice(&bytes[..len], IpAddress::Ipv4(to));
        }
    }

    fn send_raw(&mut self, to: Ipv4Address, body: &[u8]) {
        let header = IpRepr::Ipv4(Ipv4Repr {
            src_addr: self.host.ipv4_addr(),
            dst_addr: to,
            next_header: EXPERIMENT,
            payload_len: body.len(),
            hop_limit: 64,
        });
        if body.len() > LONGEST {
            return;
        }
        let mut bytes = [0u8; LONGEST + 20];
        let packet = &mut bytes[..20 + body.len()];
        header.emit(packet, &self.host.checksum_caps());
        packet[20..].copy_from_slice(body);
        let _ = self.raw.send_slice(packet);
    }
}

// What the sockets emit.
impl Node<'_> {
    fn dispatch(&mut self) -> Result<(), AllocError> {
        for socket in &mut self.udps {
            for _ in 0..64 {
                if socket.poll_at(&self.host) != PollAt::Now {
                    break;
                }
                socket.dispatch(&mut self.host, |cx: &mut Host, sent: (IpRepr, UdpRepr, &[u8])| {
                    emit_udp(cx, &sent.0, &sent.1, sent.2)
                })?;
            }
        }
        for _ in 0..8 {
            self.icmp.dispatch(&mut self.host, |cx: &mut Host, sent: (IpRepr, IcmpRepr<'_>)| {
                emit_icmp(cx, &sent.0, &sent.1)
            })?;
            self.raw.dispatch(&mut self.host, |cx: &mut Host, sent: (IpRepr, &[u8])| {
                emit_raw(cx, &sent.0, sent.1)
            })?;
        }
        Ok(())
    }
}

fn emit_udp(cx: &mut Host, ip: &IpRepr, repr: &UdpRepr, payload: &[u8]) -> Result<(), AllocError> {
    let caps = cx.checksum_caps();
    cx.outbox.emit_udp(ip, repr, payload, &caps)?;
    Ok(())
}

fn emit_icmp(cx: &mut Host, ip: &IpRepr, repr: &IcmpRepr<'_>) -> Result<(), AllocError> {
    let caps = cx.checksum_caps();
    cx.outbox.emit_icmp(ip, repr, &caps)
}

fn emit_raw(cx: &mut Host, ip: &IpRepr, payload: &[u8]) -> Result<(), AllocError> {
    let caps = cx.checksum_caps();
    cx.outbox.emit_raw(ip, payload, &caps)
}

// What arrives.
impl Node<'_> {
    fn receive_from(&mut self, other: &mut Node<'_>) -> Result<(), AllocError> {
        for packet in take_packets(&mut other.host) {
            self.receive(packet.as_slice())?;
        }
        Ok(())
    }

    fn receive(&mut self, bytes: &[u8]) -> Result<(), AllocError> {
        let caps = self.host.checksum_caps();
        if let Ok((ip, repr, payload)) = packet::parse_udp(bytes, &caps) {
            self.receive_udp(&ip, &repr, payload);
            return Ok(());
        }
        let Some((IpRepr::Ipv4(ip), payload)) = packet::carried(bytes, &caps) else {
            self.refused = self.refused.wrapping_add(1);
            return Ok(());
        };
        match ip.next_header {
            IpProtocol::Icmp => self.receive_icmp(&ip, payload)?,
            _ => self.receive_raw(&ip, payload),
        }
        Ok(())
    }

    fn receive_udp(&mut self, ip: &IpRepr, repr: &UdpRepr, payload: &[u8]) {
        for socket in &mut self.udps {
            if socket.accepts(&self.host, ip, repr) {
                socket.process(&self.host, ip, repr, payload);
                return;
            }
        }
        self.refused = self.refused.wrapping_add(1);
    }

    // A ping is answered; its answer goes to the socket.
    fn receive_icmp(&mut self, ip: &Ipv4Repr, payload: &[u8]) -> Result<(), AllocError> {
        let caps = self.host.checksum_caps();
        let Ok(message) = Icmpv4Repr::parse(payload, &caps) else {
            return Ok(());
        };
        if let Icmpv4Repr::EchoRequest { ident, seq_no, body } = message {
            let reply = Icmpv4Repr::EchoReply { ident, seq_no, body };
            let header = IpRepr::Ipv4(Ipv4Repr {
                src_addr: ip.dst_addr,
                dst_addr: ip.src_addr,
                next_header: IpProtocol::Icmp,
                payload_len: reply.buffer_len(),
                hop_limit: 64,
            });
            return emit_icmp(&mut self.host, &header, &IcmpRepr::Ipv4(reply));
        }
        if self.icmp.accepts_v4(&self.host, ip, &message) {
            self.icmp.process_v4(&self.host, ip, &message);
        }
        Ok(())
    }

    fn receive_raw(&mut self, ip: &Ipv4Repr, payload: &[u8]) {
        let ip = IpRepr::Ipv4(*ip);
        if self.raw.accepts(&ip) {
            self.raw.process(&self.host, &ip, payload);
        } else {
            self.refused = self.refused.wrapping_add(1);
        }
    }
}

// What the applications read: most of what came, so that the queues are near full.
impl Node<'_> {
    fn read(&mut self, random: &mut Random, digest: &mut Digest) {
        let mut bytes = [0u8; 2048];
        for socket in &mut self.udps {
            for _ in 0..random.below(12) {
                let Ok((count, from)) = socket.recv_slice(&mut bytes) else {
                    break;
                };
                digest.bytes(&bytes[..count]);
                digest.number(u64::from(from.endpoint.port));
            }
        }
        for _ in 0..random.below(4) {
            if let Ok((count, _)) = self.icmp.recv_slice(&mut bytes) {
                digest.bytes(&bytes[..count]);
            }
            if let Ok(count) = self.raw.recv_slice(&mut bytes) {
                digest.bytes(&bytes[..count]);
            }
        }
    }
}
