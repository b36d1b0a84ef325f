// Made from crates/socket_script/src/shown.rt by rust/translate: change it there.
//! What is printed of packets and bytes.

use crate::proved::control_wire::{TcpRepr, TcpSeqNumber, TcpTimestampRepr};
use crate::proved::ip_wire::{IpAddress, IpEndpoint, IpRepr};
use crate::proved::sock_pair::script::flags;
use crate::proved::sock_pair::script::values::is_text;
use crate::proved::socket_script::packet::{Kind, Packet};
use core::fmt;
use core::fmt::Write as _;

// So many bytes of a payload are shown.
const SHOWN: usize = 64;

/// Printable ASCII.
#[derive(Clone, Copy)]
pub struct Ascii<'t>(pub &'t [u8]);

impl fmt::Display for Ascii<'_> {
    fn fmt(&self, f: &mut fmt::Formatter<'_>) -> fmt::Result {
        for byte in self.0 {
            f.write_char(char::from(*byte))?;
        }
        Ok(())
    }
}

/// Two hexadecimal digits for each byte.
#[derive(Clone, Copy)]
pub struct Hex<'t>(pub &'t [u8]);

impl fmt::Display for Hex<'_> {
    fn fmt(&self, f: &mut fmt::Formatter<'_>) -> fmt::Result {
        for byte in self.0 {
            write!(f, "{byte:02x}")?;
        }
        Ok(())
    }
}

/// How many bytes were read, and which: as they are where all are printable ASCII.
#[derive(Clone, Copy)]
pub struct ReadBytes<'t>(pub &'t [u8]);

impl fmt::Display for ReadBytes<'_> {
    fn fmt(&self, f: &mut fmt::Formatter<'_>) -> fmt::Result {
        let (bytes, len) = (self.0, self.0.len());
        if bytes.is_empty() {
            return f.write_str("read 0");
        }
        if is_text(bytes) {
            let text = Ascii(bytes);
            return write!(f, "read {len} {text}");
        }
        let digits = Hex(bytes);
        write!(f, "read {len} bytes {digits}")
    }
}

/// An address, as `10.0.0.1`, or in brackets eight groups of four hexadecimal digits.
#[derive(Clone, Copy)]
pub struct Address(pub IpAddress);

impl fmt::Display for Address {
    fn fmt(&self, f: &mut fmt::Formatter<'_>) -> fmt::Result {
        match self.0 {
            IpAddress::Ipv4(addr) => {
                let [a, b, c, d] = addr.octets();
                write!(f, "{a}.{b}.{c}.{d}")
            }
            IpAddress::Ipv6(addr) => {
                f.write_str("[")?;
                for (at, octet) in addr.octets().iter().enumerate() {
                    if at > 0 && at % 2 == 0 {
                        f.write_str(":")?;
                    }
                    write!(f, "{octet:02x}")?;
                }
                f.write_str("]")
            }
        }
    }
}

// An acknowledgement number, or `-`.
#[derive(Clone, Copy)]
struct Ack(Option<TcpSeqNumber>);

impl fmt::Display for Ack {
    fn fmt(&self, f: &mut fmt::Formatter<'_>) -> fmt::Result {
        match self.0 {
            None => f.write_str("-"),
            Some(number) => {
                let number = number.0;
                write!(f, "{number}")
            }
        }
    }
}

// `FLAGS seq N ack N win N len N`
#[derive(Clone, Copy)]
struct Segment<'s>(&'s TcpRepr<'static>, usize);

impl fmt::Display for Segment<'_> {
    fn fmt(&self, f: &mut fmt::Formatter<'_>) -> fmt::Result {
        let (repr, len) = (self.0, self.1);
        let flags = flags(repr.control, repr.ack_number.is_some());
        let (seq, ack, win) = (repr.seq_number.0, Ack(repr.ack_number), repr.window_len);
        write!(f, "{flags} seq {seq} ack {ack} win {win} len {len}")
    }
}

// ` mss N`, or nothing.
#[derive(Clone, Copy)]
struct Mss(Option<u16>);

impl fmt::Display for Mss {
    fn fmt(&self, f: &mut fmt::Formatter<'_>) -> fmt::Result {
        match self.0 {
            None => Ok(()),
            Some(mss) => write!(f, " mss {mss}"),
        }
    }
}

// ` scale N`, or nothing.
#[derive(Clone, Copy)]
struct Scale(Option<u8>);

impl fmt::Display for Scale {
    fn fmt(&self, f: &mut fmt::Formatter<'_>) -> fmt::Result {
        match self.0 {
            None => Ok(()),
            Some(scale) => write!(f, " scale {scale}"),
        }
    }
}

// ` range START END`, or nothing.
#[derive(Clone, Copy)]
struct Range(Option<(u32, u32)>);

impl fmt::Display for Range {
    fn fmt(&self, f: &mut fmt::Formatter<'_>) -> fmt::Result {
        match self.0 {
            None => Ok(()),
            Some((start, end)) => write!(f, " range {start} {end}"),
        }
    }
}

// ` range START END` for each.
#[derive(Clone, Copy)]
struct Ranges(Option<(u32, u32)>, Option<(u32, u32)>, Option<(u32, u32)>);

impl fmt::Display for Ranges {
    fn fmt(&self, f: &mut fmt::Formatter<'_>) -> fmt::Result {
        let (first, second, third) = (Range(self.0), Range(self.1), Range(self.2));
        write!(f, "{first}{second}{third}")
    }
}

// ` ts VALUE ECHO`, or nothing.
#[derive(Clone, Copy)]
struct Stamp(Option<TcpTimestampRepr>);

impl fmt::Display for Stamp {
    fn fmt(&self, f: &mut fmt::Formatter<'_>) -> fmt::Result {
        match self.0 {
            None => Ok(()),
            Some(stamp) => {
                let TcpTimestampRepr { tsval, tsecr } = stamp;
                write!(f, " ts {tsval} {tsecr}")
            }
        }
    }
}

// ` sack` where SACK is permitted.
fn sack(permitted: bool) -> &'static str {
    match permitted {
        true => " sack",
        false => "",
    }
}

// The options of a segment.
#[derive(Clone, Copy)]
struct Options<'s>(&'s TcpRepr<'static>);

impl fmt::Display for Options<'_> {
    fn fmt(&self, f: &mut fmt::Formatter<'_>) -> fmt::Result {
        let repr = self.0;
        let (mss, scale) = (Mss(repr.max_seg_size), Scale(repr.window_scale));
        let (sack, stamp) = (sack(repr.sack_permitted), Stamp(repr.timestamp));
        let [first, second, third] = repr.sack_ranges;
        let ranges = Ranges(first, second, third);
        write!(f, "{mss}{scale}{sack}{ranges}{stamp}")
    }
}

// ` data TEXT` where the payload is short and printable.
#[derive(Clone, Copy)]
struct Data<'t>(&'t [u8]);

impl fmt::Display for Data<'_> {
    fn fmt(&self, f: &mut fmt::Formatter<'_>) -> fmt::Result {
        if self.0.is_empty() || self.0.len() > SHOWN || !is_text(self.0) {
            return Ok(());
        }
        let text = Ascii(self.0);
        write!(f, " data {text}")
    }
}

/// A packet of a socket, whose own endpoint and peer are these.
#[derive(Clone, Copy)]
pub struct Shown<'s> {
    pub packet: &'s Packet,
    pub here: IpEndpoint,
    pub peer: IpEndpoint,
}

impl fmt::Display for Shown<'_> {
    fn fmt(&self, f: &mut fmt::Formatter<'_>) -> fmt::Result {
        let Packet { ip, kind, payload } = self.packet;
        let bytes = payload.as_slice();
        match kind {
            Kind::Tcp(repr) => {
                let (segment, options) = (Segment(repr, bytes.len()), Options(repr));
                let (route, data) = (self.route(ip, repr.src_port, repr.dst_port), Data(bytes));
                write!(f, "{segment}{options}{route}{data}")
            }
            Kind::Udp(repr) => {
                let (from, to) = (
                    IpEndpoint::new(ip.src_addr(), repr.src_port),
                    IpEndpoint::new(ip.dst_addr(), repr.dst_port),
                );
                let (hop, len, data) = (ip.hop_limit(), bytes.len(), Data(bytes));
                write!(f, "from {from} to {to} hop {hop} len {len}{data}")
            }
            Kind::Icmp => {
                let (route, digits) = (Hops(ip), Hex(bytes));
                write!(f, "{route} bytes {digits}")
            }
            Kind::Raw => {
                let (route, digits) = (Hops(ip), Hex(bytes));
                let protocol = u8::from(ip.next_header());
                write!(f, "{route} protocol {protocol} bytes {digits}")
            }
        }
    }
}

impl Shown<'_> {
    fn route(&self, ip: &IpRepr, src_port: u16, dst_port: u16) -> Route {
        let (from, to) = (IpEndpoint::new(ip.src_addr(), src_port), IpEndpoint::new(ip.dst_addr(), dst_port));
        Route {
            ends: if from == self.here && to == self.peer { None } else { Some((from, to)) },
            hop: ip.hop_limit(),
        }
    }
}

// ` from ENDPOINT to ENDPOINT` where these are not the usual ones, and ` hop N` where that is not 64.
#[derive(Clone, Copy)]
struct Route {
    ends: Option<(IpEndpoint, IpEndpoint)>,
    hop: u8,
}

impl fmt::Display for Route {
    fn fmt(&self, f: &mut fmt::Formatter<'_>) -> fmt::Result {
        if let Some((from, to)) = self.ends {
            write!(f, " from {from} to {to}")?;
        }
        let hop = self.hop;
        if hop == 64 {
            return Ok(());
        }
        write!(f, " hop {hop}")
    }
}

// `from ADDRESS to ADDRESS hop N`
#[derive(Clone, Copy)]
struct Hops<'s>(&'s IpRepr);

impl fmt::Display for Hops<'_> {
    fn fmt(&self, f: &mut fmt::Formatter<'_>) -> fmt::Result {
        let (from, to) = (Address(self.0.src_addr()), Address(self.0.dst_addr()));
        let hop = self.0.hop_limit();
        write!(f, "from {from} to {to} hop {hop}")
    }
}
