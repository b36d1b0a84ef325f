// Made from crates/two_hosts/src/trace.rt by rust/translate: change it there.
//! What happened, line by line: the packets as tcpdump shows them, and what the applications saw.

use crate::context::{A, B};
use crate::packet::{Body, read};
use core::fmt::Write;
use smoltcp_proved::kit::String;
use smoltcp_proved::kit::alloc::{AllocError, Global};
use smoltcp_proved::sockets::wire::{
    ChecksumCapabilities, Icmpv4Repr, IpAddress, IpProtocol, TcpControl, TcpRepr,
};

/// The lines so far.
pub struct Trace {
    /// The text of all lines.
    pub text: String,
}

impl Trace {
    /// No lines yet.
    pub fn new(alloc: Global) -> Trace {
        Trace { text: String::new(alloc) }
    }

    /// Begins a line with the time, given in milliseconds and shown in seconds, and lends the text for the rest of it.
    pub fn at(&mut self, now: u32) -> Result<&mut String, AllocError> {
        let seconds = now / 1000;
        let millis = now % 1000;
        write!(self.text, "{seconds:>3}.{millis:03} ")?;
        Ok(&mut self.text)
    }

    /// A line for a packet: when it was sent, by which host to which, what it carries, and when it arrives, if it does.
    pub fn packet(&mut self, now: u32, packet: &[u8], arrival: Option<u32>) -> Result<(), AllocError> {
        self.at(now)?;
        self.content(packet)?;
        self.arrival(arrival)
    }

    fn content(&mut self, packet: &[u8]) -> Result<(), AllocError> {
        let Some((ip, body)) = read(packet) else {
            return write!(self.text, "malformed");
        };
        let (src, dst) = (name(&ip.src_addr()), name(&ip.dst_addr()));
        match body {
            Body::Tcp(header) => {
                self.ends(src, header.src_port, dst, header.dst_port)?;
                self.segment(&header, header.payload.len())
            }
            Body::Udp(repr, len) => {
                self.ends(src, repr.src_port, dst, repr.dst_port)?;
                write!(self.text, "UDP len {len}")
            }
            Body::Icmp(message) => self.message(src, dst, message),
            Body::Raw(len) => self.raw(src, dst, ip.next_header(), len),
        }
    }

    // The ports between which a segment or a datagram goes.
    fn ends(&mut self, src: &str, from: u16, dst: &str, to: u16) -> Result<(), AllocError> {
        write!(self.text, "{src}:{from} > {dst}:{to}: ")
    }

    fn segment(&mut self, header: &TcpRepr<'_>, len: usize) -> Result<(), AllocError> {
        let (flags, seq) = (flags(header), header.seq_number.0);
        write!(self.text, "{flags} seq {seq}")?;
        if let Some(ack) = header.ack_number {
            let ack = ack.0;
            write!(self.text, " ack {ack}")?;
        }
        let win = header.window_len;
        write!(self.text, " win {win} len {len}")?;
        if let Some((left, right)) = header.sack_ranges[0] {
            write!(self.text, " sack {left}-{right}")?;
        }
        Ok(())
    }

    fn raw(&mut self, src: &str, dst: &str, protocol: IpProtocol, len: usize) -> Result<(), AllocError> {
        let protocol = u8::from(protocol);
        write!(self.text, "{src} > {dst}: protocol {protocol} len {len}")
    }

    fn message(&mut self, src: &str, dst: &str, message: &[u8]) -> Result<(), AllocError> {
        write!(self.text, "{src} > {dst}: ICMP ")?;
        match Icmpv4Repr::parse(message, &ChecksumCapabilities::default()) {
            Ok(Icmpv4Repr::EchoRequest { ident, seq_no, .. }) => {
                write!(self.text, "echo request id {ident} seq {seq_no}")
            }
            Ok(Icmpv4Repr::EchoReply { ident, seq_no, .. }) => {
                write!(self.text, "echo reply id {ident} seq {seq_no}")
            }
            _ => write!(self.text, "error"),
        }
    }

    fn arrival(&mut self, arrival: Option<u32>) -> Result<(), AllocError> {
        match arrival {
            None => writeln!(self.text, ", lost"),
            Some(arrival) => {
                let seconds = arrival / 1000;
                let millis = arrival % 1000;
                writeln!(self.text, ", arrives {seconds}.{millis:03}")
            }
        }
    }
}

// The name of the host that has the address.
fn name(addr: &IpAddress) -> &'static str {
    match addr {
        IpAddress::Ipv4(addr) if *addr == A => "a",
        IpAddress::Ipv4(addr) if *addr == B => "b",
        _ => "?",
    }
}

fn flags(header: &TcpRepr<'_>) -> &'static str {
    match (header.control, header.ack_number) {
        (TcpControl::Syn, None) => "SYN",
        (TcpControl::Syn, Some(_)) => "SYN|ACK",
        (TcpControl::Fin, _) => "FIN|ACK",
        (TcpControl::Psh, _) => "PSH|ACK",
        (TcpControl::Rst, None) => "RST",
        (TcpControl::Rst, Some(_)) => "RST|ACK",
        (TcpControl::None, _) => "ACK",
    }
}
