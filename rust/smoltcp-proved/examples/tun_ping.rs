//! Pings the other end of a TUN device of Linux, which answers, and sends it a datagram that nobody takes, of which it
//! says so by an ICMP error. No byte of a message is written or read by hand.
//!
//!     tun_ping DEVICE COUNT
//!
//! makes the device, which then has to be given the address 10.9.0.1/24 and set up, and ends with an error where an
//! answer does not come within ten seconds.
use smoltcp_proved::iface::{Config, Interface, SocketSet};
use smoltcp_proved::phy::{ChecksumCapabilities, Medium, TunTapInterface, wait};
use smoltcp_proved::socket::{icmp, udp};
use smoltcp_proved::time::{Duration, Instant};
use smoltcp_proved::wire::{HardwareAddress, Icmpv4Packet, Icmpv4Repr, IpAddress, IpCidr};
use std::io;
use std::os::fd::AsRawFd;

const PEER: IpAddress = IpAddress::v4(10, 9, 0, 1);
const IDENT: u16 = 0x2a2a;
const PORT: u16 = 49152;
const PATIENCE: Duration = Duration::from_secs(10);

fn socket(endpoint: icmp::Endpoint) -> Result<icmp::Socket<'static>, icmp::BindError> {
    let buffer = || icmp::PacketBuffer::new(vec![icmp::PacketMetadata::EMPTY; 4], vec![0; 4000]);
    let mut socket = icmp::Socket::new(buffer(), buffer());
    socket.bind(endpoint)?;
    Ok(socket)
}

/// The message that these bytes spell, and what there is to say of it, where it is an answer.
fn said(bytes: &[u8], from: IpAddress) -> Option<String> {
    let packet = Icmpv4Packet::new_checked(bytes).ok()?;
    match Icmpv4Repr::parse(&packet, &ChecksumCapabilities::default()).ok()? {
        Icmpv4Repr::EchoReply { seq_no, data, .. } => {
            Some(format!("{from}: seq {seq_no}, {} bytes", data.len()))
        }
        Icmpv4Repr::DstUnreachable { header, .. } => Some(format!(
            "{from}: destination port unreachable: {} to {}",
            header.next_header, header.dst_addr
        )),
        _ => None,
    }
}

fn main() -> io::Result<()> {
    let args: Vec<String> = std::env::args().collect();
    let [_, name, count] = &args[..] else {
        return Err(io::Error::other("usage: tun_ping DEVICE COUNT"));
    };
    let count: u16 = count.parse().map_err(io::Error::other)?;
    let begin = std::time::Instant::now();
    let now = || Instant::from(begin);
    let mut device = TunTapInterface::new(name, Medium::Ip)?;
    let mut iface = Interface::new(Config::new(HardwareAddress::Ip), &mut device, now());
    iface.update_ip_addrs(|addrs| {
        addrs.push(IpCidr::new(IpAddress::v4(10, 9, 0, 2), 24)).expect("room for an address");
    });

    let mut sockets = SocketSet::new(vec![]);
    let echoes = sockets.add(socket(icmp::Endpoint::Ident(IDENT)).map_err(io::Error::other)?);
    let errors = sockets.add(socket(icmp::Endpoint::Udp(PORT.into())).map_err(io::Error::other)?);
    let buffer = || udp::PacketBuffer::new(vec![udp::PacketMetadata::EMPTY; 4], vec![0; 1000]);
    let datagrams = sockets.add(udp::Socket::new(buffer(), buffer()));
    sockets.get_mut::<udp::Socket>(datagrams).bind(PORT).map_err(io::Error::other)?;

    // one question after the other, each asked again every second until it is answered
    for seq_no in 0..=count {
        let (asked_at, mut again_at) = (now(), now());
        loop {
            if now() >= again_at {
                again_at = now() + Duration::from_secs(1);
                if seq_no < count {
                    let repr = Icmpv4Repr::EchoRequest { ident: IDENT, seq_no, data: &[seq_no as u8; 40] };
                    let room = sockets.get_mut::<icmp::Socket>(echoes).send(repr.buffer_len(), PEER);
                    let room = room.map_err(io::Error::other)?;
                    repr.emit(&mut Icmpv4Packet::new_unchecked(room), &ChecksumCapabilities::default());
                } else {
                    let socket = sockets.get_mut::<udp::Socket>(datagrams);
                    socket.send_slice(b"anybody?", (PEER, 9)).map_err(io::Error::other)?;
                }
            }
            iface.poll(now(), &mut device, &mut sockets);
            let socket = sockets.get_mut::<icmp::Socket>(if seq_no < count { echoes } else { errors });
            if let Some(line) = socket.recv().ok().and_then(|(bytes, from)| said(bytes, from)) {
                println!("{line}");
                break;
            }
            if now() - asked_at > PATIENCE {
                return Err(io::Error::other("no answer"));
            }
            wait(device.as_raw_fd(), Some(Duration::from_millis(100)))?;
        }
    }
    Ok(())
}
