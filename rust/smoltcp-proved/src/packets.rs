//! IP, UDP and TCP headers with smoltcp's names: a view of bytes, and an IP header as a value. By hand, and not proved.
use crate::proved::control_wire::TcpSeqNumber;
use crate::proved::ip_wire::sum::{checksum_after, pseudo_sum, sum_after};
use crate::proved::ip_wire::{
    self, ChecksumCapabilities, Error, IpAddress, IpProtocol, Ipv4Address, Ipv6Address,
};
use core::fmt;

type Result<T> = core::result::Result<T, Error>;

fn be16(bytes: &[u8], at: usize) -> u16 {
    crate::kit::be16(bytes, at)
}

fn put(bytes: &mut [u8], at: usize, value: &[u8]) {
    bytes[at..at + value.len()].copy_from_slice(value);
}

// Puts these bits of a byte's in the place of those there.
fn put_bits(byte: &mut u8, mask: u8, value: u8) {
    *byte = *byte & !mask | value & mask;
}

/// What each view has: `name`, of bytes whose first so many are the header without options, and its `fields`, each a
/// name, what it is, and how it is read from `bytes`.
macro_rules! view {
    ($(#[$doc:meta])* $name:ident, $least:literal; $($(#[$field_doc:meta])* $field:ident: $type:ty = |$bytes:ident| $expr:expr;)*) => {
        $(#[$doc])*
        #[derive(Debug, Clone, PartialEq, Eq)]
        pub struct $name<T: AsRef<[u8]>> {
            buffer: T,
        }

        impl<T: AsRef<[u8]>> $name<T> {
            /// A view of these bytes: each call panics where they are too few for it.
            pub const fn new_unchecked(buffer: T) -> $name<T> {
                $name { buffer }
            }

            /// A view of these bytes.
            ///
            /// # Errors
            /// As [`Self::check_len`].
            pub fn new_checked(buffer: T) -> Result<$name<T>> {
                let packet = $name::new_unchecked(buffer);
                packet.check_len()?;
                Ok(packet)
            }

            /// The bytes.
            pub fn into_inner(self) -> T {
                self.buffer
            }

            fn bytes(&self) -> &[u8] {
                self.buffer.as_ref()
            }

            // Whether these lengths fit: the header's, and that of all.
            fn fits(&self, header: usize, total: usize) -> Result<()> {
                let right = $least <= header && header <= total && total <= self.bytes().len();
                if right { Ok(()) } else { Err(Error) }
            }

            $($(#[$field_doc])* pub fn $field(&self) -> $type {
                let $bytes = self.bytes();
                $expr
            })*
        }

        impl<T: AsRef<[u8]>> AsRef<[u8]> for $name<T> {
            fn as_ref(&self) -> &[u8] {
                self.bytes()
            }
        }

        impl<'a, T: AsRef<[u8]> + ?Sized> $name<&'a T> {
            /// What stands behind the header.
            pub fn payload(&self) -> &'a [u8] {
                &self.buffer.as_ref()[self.payload_range()]
            }
        }

        impl<T: AsRef<[u8]> + AsMut<[u8]>> $name<T> {
            /// What stands behind the header, for writing.
            pub fn payload_mut(&mut self) -> &mut [u8] {
                let range = self.payload_range();
                &mut self.buffer.as_mut()[range]
            }
        }
    };
}

/// Calls that write a field: each a name, what it is, and how it is written to `bytes`.
macro_rules! setters {
    ($name:ident; $($(#[$doc:meta])* $field:ident($value:ident: $type:ty) = |$bytes:ident| $expr:expr;)*) => {
        impl<T: AsRef<[u8]> + AsMut<[u8]>> $name<T> {
            $($(#[$doc])* pub fn $field(&mut self, $value: $type) {
                let $bytes = self.buffer.as_mut();
                $expr;
            })*
        }
    };
}

fn four(bytes: &[u8], at: usize) -> Ipv4Address {
    Ipv4Address::new(bytes[at], bytes[at + 1], bytes[at + 2], bytes[at + 3])
}

fn sixteen(bytes: &[u8], at: usize) -> Ipv6Address {
    let mut octets = [0; 16];
    octets.copy_from_slice(&bytes[at..at + 16]);
    octets.into()
}

view! {
    /// The bytes of an IPv4 packet (RFC 791, section 3.1).
    Ipv4Packet, 20;
    /// The version: 4.
    version: u8 = |bytes| bytes[0] >> 4;
    /// The length of the header with its options, in bytes.
    header_len: u8 = |bytes| (bytes[0] & 0x0f) * 4;
    /// The code point of differentiated services (RFC 2474).
    dscp: u8 = |bytes| bytes[1] >> 2;
    /// What is said of congestion (RFC 3168).
    ecn: u8 = |bytes| bytes[1] & 3;
    /// The length of header and payload, in bytes.
    total_len: u16 = |bytes| be16(bytes, 2);
    /// The identification of a fragment's packet.
    ident: u16 = |bytes| be16(bytes, 4);
    /// Whether routers may not fragment it.
    dont_frag: bool = |bytes| bytes[6] & 0x40 != 0;
    /// Whether more fragments follow.
    more_frags: bool = |bytes| bytes[6] & 0x20 != 0;
    /// The place of a fragment in its packet, in bytes.
    frag_offset: u16 = |bytes| be16(bytes, 6) << 3;
    /// How many routers it may pass.
    hop_limit: u8 = |bytes| bytes[8];
    /// The protocol of the payload.
    next_header: IpProtocol = |bytes| bytes[9].into();
    /// The checksum of the header.
    checksum: u16 = |bytes| be16(bytes, 10);
    /// Where it comes from.
    src_addr: Ipv4Address = |bytes| four(bytes, 12);
    /// Where it goes.
    dst_addr: Ipv4Address = |bytes| four(bytes, 16);
    /// Whether the checksum is that of the header.
    verify_checksum: bool = |bytes| sum_after(0, &bytes[..usize::from(bytes[0] & 0x0f) * 4]) == 0xffff;
}

impl<T: AsRef<[u8]>> Ipv4Packet<T> {
    /// An error where the header has fewer than 20 bytes, or header or packet reach beyond the bytes.
    pub fn check_len(&self) -> Result<()> {
        self.fits(20, self.bytes().len())?;
        self.fits(self.header_len().into(), self.total_len().into())
    }

    fn payload_range(&self) -> core::ops::Range<usize> {
        self.header_len().into()..self.total_len().into()
    }
}

setters! {
    Ipv4Packet;
    /// Sets the version.
    set_version(value: u8) = |bytes| put_bits(&mut bytes[0], 0xf0, value << 4);
    /// Sets the length of the header, in bytes: a multiple of four.
    set_header_len(value: u8) = |bytes| put_bits(&mut bytes[0], 0x0f, value / 4);
    /// Sets the code point of differentiated services.
    set_dscp(value: u8) = |bytes| put_bits(&mut bytes[1], 0xfc, value << 2);
    /// Sets what is said of congestion.
    set_ecn(value: u8) = |bytes| put_bits(&mut bytes[1], 3, value);
    /// Sets the length of header and payload, in bytes.
    set_total_len(value: u16) = |bytes| put(bytes, 2, &value.to_be_bytes());
    /// Sets the identification.
    set_ident(value: u16) = |bytes| put(bytes, 4, &value.to_be_bytes());
    /// Sets whether routers may not fragment it.
    set_dont_frag(value: bool) = |bytes| put_bits(&mut bytes[6], 0x40, u8::from(value) << 6);
    /// Sets whether more fragments follow.
    set_more_frags(value: bool) = |bytes| put_bits(&mut bytes[6], 0x20, u8::from(value) << 5);
    /// Sets the place of a fragment, in bytes: a multiple of eight.
    set_frag_offset(value: u16) = |bytes| {
        put_bits(&mut bytes[6], 0x1f, (value >> 11) as u8);
        bytes[7] = (value >> 3) as u8;
    };
    /// Sets how many routers it may pass.
    set_hop_limit(value: u8) = |bytes| bytes[8] = value;
    /// Sets the protocol of the payload.
    set_next_header(value: IpProtocol) = |bytes| bytes[9] = value.into();
    /// Sets the checksum.
    set_checksum(value: u16) = |bytes| put(bytes, 10, &value.to_be_bytes());
    /// Sets where it comes from.
    set_src_addr(value: Ipv4Address) = |bytes| put(bytes, 12, &value.octets());
    /// Sets where it goes.
    set_dst_addr(value: Ipv4Address) = |bytes| put(bytes, 16, &value.octets());
}

impl<T: AsRef<[u8]> + AsMut<[u8]>> Ipv4Packet<T> {
    /// Sets the flags and the place of a fragment to 0.
    pub fn clear_flags(&mut self) {
        put(self.buffer.as_mut(), 6, &[0, 0]);
    }

    /// Writes the checksum of the header.
    pub fn fill_checksum(&mut self) {
        self.set_checksum(0);
        let checksum = checksum_after(0, &self.bytes()[..self.header_len().into()]);
        self.set_checksum(checksum);
    }
}

view! {
    /// The bytes of an IPv6 packet (RFC 8200, section 3).
    Ipv6Packet, 40;
    /// The version: 6.
    version: u8 = |bytes| bytes[0] >> 4;
    /// The class of the traffic.
    traffic_class: u8 = |bytes| (be16(bytes, 0) >> 4) as u8;
    /// The label of its flow, of 20 bits.
    flow_label: u32 = |bytes| crate::kit::be32(bytes, 0) & 0xf_ffff;
    /// The length of what follows the header, in bytes.
    payload_len: u16 = |bytes| be16(bytes, 4);
    /// The length of header and payload, in bytes.
    total_len: usize = |bytes| 40 + usize::from(be16(bytes, 4));
    /// The protocol of the payload, or an extension header.
    next_header: IpProtocol = |bytes| bytes[6].into();
    /// How many routers it may pass.
    hop_limit: u8 = |bytes| bytes[7];
    /// Where it comes from.
    src_addr: Ipv6Address = |bytes| sixteen(bytes, 8);
    /// Where it goes.
    dst_addr: Ipv6Address = |bytes| sixteen(bytes, 24);
}

impl<T: AsRef<[u8]>> Ipv6Packet<T> {
    /// An error where header or packet reach beyond the bytes.
    pub fn check_len(&self) -> Result<()> {
        self.fits(40, self.bytes().len())?;
        self.fits(40, self.total_len())
    }

    /// The length of the header, in bytes: 40.
    pub fn header_len(&self) -> usize {
        40
    }

    fn payload_range(&self) -> core::ops::Range<usize> {
        40..self.total_len()
    }
}

setters! {
    Ipv6Packet;
    /// Sets the version.
    set_version(value: u8) = |bytes| put_bits(&mut bytes[0], 0xf0, value << 4);
    /// Sets the class of the traffic.
    set_traffic_class(value: u8) = |bytes| {
        put_bits(&mut bytes[0], 0x0f, value >> 4);
        put_bits(&mut bytes[1], 0xf0, value << 4);
    };
    /// Sets the label of its flow, of 20 bits.
    set_flow_label(value: u32) = |bytes| {
        put_bits(&mut bytes[1], 0x0f, (value >> 16) as u8);
        put(bytes, 2, &(value as u16).to_be_bytes());
    };
    /// Sets the length of what follows the header, in bytes.
    set_payload_len(value: u16) = |bytes| put(bytes, 4, &value.to_be_bytes());
    /// Sets the protocol of the payload.
    set_next_header(value: IpProtocol) = |bytes| bytes[6] = value.into();
    /// Sets how many routers it may pass.
    set_hop_limit(value: u8) = |bytes| bytes[7] = value;
    /// Sets where it comes from.
    set_src_addr(value: Ipv6Address) = |bytes| put(bytes, 8, &value.octets());
    /// Sets where it goes.
    set_dst_addr(value: Ipv6Address) = |bytes| put(bytes, 24, &value.octets());
}

view! {
    /// The bytes of a UDP datagram (RFC 768).
    UdpPacket, 8;
    /// The port that it comes from.
    src_port: u16 = |bytes| be16(bytes, 0);
    /// The port that it goes to.
    dst_port: u16 = |bytes| be16(bytes, 2);
    /// The length of header and payload, in bytes.
    len: u16 = |bytes| be16(bytes, 4);
    /// The checksum; 0 for none, over IPv4.
    checksum: u16 = |bytes| be16(bytes, 6);
}

impl<T: AsRef<[u8]>> UdpPacket<T> {
    /// An error where header or datagram reach beyond the bytes.
    pub fn check_len(&self) -> Result<()> {
        self.fits(8, self.bytes().len())?;
        self.fits(8, self.len().into())
    }

    /// Whether the datagram has no bytes, which no datagram is.
    pub fn is_empty(&self) -> bool {
        self.len() == 0
    }

    /// Whether the checksum is that of the datagram between these addresses; over IPv4 also where there is none.
    pub fn verify_checksum(&self, src_addr: &IpAddress, dst_addr: &IpAddress) -> bool {
        let none = matches!(dst_addr, IpAddress::Ipv4(_)) && self.checksum() == 0;
        let datagram = &self.bytes()[..self.len().into()];
        none || sum_after(pseudo_sum(src_addr, dst_addr, 17, datagram.len()), datagram) == 0xffff
    }

    fn payload_range(&self) -> core::ops::Range<usize> {
        8..self.len().into()
    }
}

setters! {
    UdpPacket;
    /// Sets the port that it comes from.
    set_src_port(value: u16) = |bytes| put(bytes, 0, &value.to_be_bytes());
    /// Sets the port that it goes to.
    set_dst_port(value: u16) = |bytes| put(bytes, 2, &value.to_be_bytes());
    /// Sets the length of header and payload, in bytes.
    set_len(value: u16) = |bytes| put(bytes, 4, &value.to_be_bytes());
    /// Sets the checksum.
    set_checksum(value: u16) = |bytes| put(bytes, 6, &value.to_be_bytes());
}

impl<T: AsRef<[u8]> + AsMut<[u8]>> UdpPacket<T> {
    /// Writes the checksum of the datagram between these addresses.
    pub fn fill_checksum(&mut self, src_addr: &IpAddress, dst_addr: &IpAddress) {
        self.set_checksum(0);
        let datagram = &self.bytes()[..self.len().into()];
        let checksum = checksum_after(pseudo_sum(src_addr, dst_addr, 17, datagram.len()), datagram);
        // 0 says that there is none
        self.set_checksum(if checksum == 0 { 0xffff } else { checksum });
    }
}

macro_rules! flags {
    ($($name:ident $set:ident $bit:literal $what:literal;)*) => { $(
        impl<T: AsRef<[u8]>> TcpPacket<T> {
            #[doc = concat!("Whether the flag ", $what, " is set.")]
            pub fn $name(&self) -> bool {
                self.bytes()[13] & $bit != 0
            }
        }

        impl<T: AsRef<[u8]> + AsMut<[u8]>> TcpPacket<T> {
            #[doc = concat!("Sets the flag ", $what, ", or takes it away.")]
            pub fn $set(&mut self, value: bool) {
                put_bits(&mut self.buffer.as_mut()[13], $bit, if value { $bit } else { 0 });
            }
        }
    )* };
}

view! {
    /// The bytes of a TCP segment (RFC 9293, section 3.1).
    TcpPacket, 20;
    /// The port that it comes from.
    src_port: u16 = |bytes| be16(bytes, 0);
    /// The port that it goes to.
    dst_port: u16 = |bytes| be16(bytes, 2);
    /// The number of its first byte.
    seq_number: TcpSeqNumber = |bytes| TcpSeqNumber(crate::kit::be32(bytes, 4) as _);
    /// The number that it acknowledges up to.
    ack_number: TcpSeqNumber = |bytes| TcpSeqNumber(crate::kit::be32(bytes, 8) as _);
    /// The length of the header with its options, in bytes.
    header_len: u8 = |bytes| (bytes[12] >> 4) * 4;
    /// The window, not scaled.
    window_len: u16 = |bytes| be16(bytes, 14);
    /// The checksum.
    checksum: u16 = |bytes| be16(bytes, 16);
    /// The pointer to urgent bytes.
    urgent_at: u16 = |bytes| be16(bytes, 18);
}

flags! {
    fin set_fin 0x01 "FIN"; syn set_syn 0x02 "SYN"; rst set_rst 0x04 "RST"; psh set_psh 0x08 "PSH";
    ack set_ack 0x10 "ACK"; urg set_urg 0x20 "URG"; ece set_ece 0x40 "ECE"; cwr set_cwr 0x80 "CWR";
}

impl<T: AsRef<[u8]>> TcpPacket<T> {
    /// An error where the header has fewer than 20 bytes, or reaches beyond the bytes.
    pub fn check_len(&self) -> Result<()> {
        self.fits(20, self.bytes().len())?;
        self.fits(self.header_len().into(), self.bytes().len())
    }

    /// How many numbers the segment takes: its bytes, and one each for SYN and FIN.
    pub fn segment_len(&self) -> usize {
        self.payload_range().len() + usize::from(self.syn()) + usize::from(self.fin())
    }

    /// The options, as they stand.
    pub fn options(&self) -> &[u8] {
        &self.bytes()[20..self.header_len().into()]
    }

    /// Whether the checksum is that of the segment between these addresses.
    pub fn verify_checksum(&self, src_addr: &IpAddress, dst_addr: &IpAddress) -> bool {
        let bytes = self.bytes();
        sum_after(pseudo_sum(src_addr, dst_addr, 6, bytes.len()), bytes) == 0xffff
    }

    fn payload_range(&self) -> core::ops::Range<usize> {
        self.header_len().into()..self.bytes().len()
    }
}

setters! {
    TcpPacket;
    /// Sets the port that it comes from.
    set_src_port(value: u16) = |bytes| put(bytes, 0, &value.to_be_bytes());
    /// Sets the port that it goes to.
    set_dst_port(value: u16) = |bytes| put(bytes, 2, &value.to_be_bytes());
    /// Sets the number of its first byte.
    set_seq_number(value: TcpSeqNumber) = |bytes| put(bytes, 4, &value.0.to_be_bytes());
    /// Sets the number that it acknowledges up to.
    set_ack_number(value: TcpSeqNumber) = |bytes| put(bytes, 8, &value.0.to_be_bytes());
    /// Sets the length of the header, in bytes: a multiple of four.
    set_header_len(value: u8) = |bytes| put_bits(&mut bytes[12], 0xf0, (value / 4) << 4);
    /// Sets the window, not scaled.
    set_window_len(value: u16) = |bytes| put(bytes, 14, &value.to_be_bytes());
    /// Sets the checksum.
    set_checksum(value: u16) = |bytes| put(bytes, 16, &value.to_be_bytes());
    /// Sets the pointer to urgent bytes.
    set_urgent_at(value: u16) = |bytes| put(bytes, 18, &value.to_be_bytes());
}

impl<T: AsRef<[u8]> + AsMut<[u8]>> TcpPacket<T> {
    /// Takes all flags away.
    pub fn clear_flags(&mut self) {
        let bytes = self.buffer.as_mut();
        bytes[12] &= 0xf0;
        bytes[13] = 0;
    }

    /// Writes the checksum of the segment between these addresses.
    pub fn fill_checksum(&mut self, src_addr: &IpAddress, dst_addr: &IpAddress) {
        self.set_checksum(0);
        let bytes = self.bytes();
        let checksum = checksum_after(pseudo_sum(src_addr, dst_addr, 6, bytes.len()), bytes);
        self.set_checksum(checksum);
    }
}

macro_rules! repr {
    ($(#[$doc:meta])* $name:ident, $address:ty, $len:literal) => {
        $(#[$doc])*
        #[derive(Debug, Clone, Copy, PartialEq, Eq)]
        pub struct $name {
            /// Where the packet comes from.
            pub src_addr: $address,
            /// Where it goes.
            pub dst_addr: $address,
            /// The protocol of the payload.
            pub next_header: IpProtocol,
            /// How many bytes the payload has.
            pub payload_len: usize,
            /// How many hops the packet may still take.
            pub hop_limit: u8,
        }

        impl $name {
            /// How many bytes the header takes.
            pub const fn buffer_len(&self) -> usize {
                $len
            }
        }

        impl From<ip_wire::$name> for $name {
            fn from(repr: ip_wire::$name) -> $name {
                let ip_wire::$name { src_addr, dst_addr, next_header, payload_len, hop_limit } = repr;
                $name { src_addr, dst_addr, next_header, payload_len, hop_limit }
            }
        }

        impl From<$name> for ip_wire::$name {
            fn from(repr: $name) -> ip_wire::$name {
                let $name { src_addr, dst_addr, next_header, payload_len, hop_limit } = repr;
                ip_wire::$name { src_addr, dst_addr, next_header, payload_len, hop_limit }
            }
        }

        impl fmt::Display for $name {
            fn fmt(&self, f: &mut fmt::Formatter<'_>) -> fmt::Result {
                let $name { src_addr, dst_addr, next_header, .. } = self;
                write!(f, concat!(stringify!($name), " src={} dst={} proto={}"), src_addr, dst_addr, next_header)
            }
        }
    };
}

repr!(
    /// An IPv4 header without options (RFC 791, section 3.1).
    Ipv4Repr, Ipv4Address, 20
);
repr!(
    /// An IPv6 header without extension headers (RFC 8200, section 3).
    Ipv6Repr, Ipv6Address, 40
);

impl Ipv4Repr {
    /// The header of a packet, without its options.
    ///
    /// # Errors
    /// Where lengths do not fit, the version is another, or the checksum is tested and wrong.
    pub fn parse<T: AsRef<[u8]> + ?Sized>(
        packet: &Ipv4Packet<&T>,
        checksum_caps: &ChecksumCapabilities,
    ) -> Result<Ipv4Repr> {
        let packet = ip_wire::Ipv4Packet::new_checked(packet.buffer.as_ref())?;
        ip_wire::Ipv4Repr::parse(&packet, checksum_caps).map(Into::into)
    }

    /// Writes the header, without options; may not be fragmented. The checksum is 0 where it is not computed.
    pub fn emit<T: AsRef<[u8]> + AsMut<[u8]>>(
        &self,
        packet: &mut Ipv4Packet<T>,
        checksum_caps: &ChecksumCapabilities,
    ) {
        ip_wire::IpRepr::Ipv4((*self).into()).emit(packet.buffer.as_mut(), checksum_caps);
    }
}

impl Ipv6Repr {
    /// The header of a packet.
    ///
    /// # Errors
    /// Where lengths do not fit, or the version is another.
    pub fn parse<T: AsRef<[u8]> + ?Sized>(packet: &Ipv6Packet<&T>) -> Result<Ipv6Repr> {
        let packet = ip_wire::Ipv6Packet::new_checked(packet.buffer.as_ref())?;
        ip_wire::Ipv6Repr::parse(&packet).map(Into::into)
    }

    /// Writes the header.
    pub fn emit<T: AsRef<[u8]> + AsMut<[u8]>>(&self, packet: &mut Ipv6Packet<T>) {
        ip_wire::IpRepr::Ipv6((*self).into()).emit(packet.buffer.as_mut(), &ChecksumCapabilities::ignored());
    }
}

impl<T: AsRef<[u8]> + ?Sized> fmt::Display for Ipv4Packet<&T> {
    fn fmt(&self, f: &mut fmt::Formatter<'_>) -> fmt::Result {
        match Ipv4Repr::parse(self, &ChecksumCapabilities::ignored()) {
            Ok(repr) => write!(f, "{repr}"),
            Err(error) => write!(f, "IPv4 ({error})"),
        }
    }
}

impl<T: AsRef<[u8]> + ?Sized> fmt::Display for Ipv6Packet<&T> {
    fn fmt(&self, f: &mut fmt::Formatter<'_>) -> fmt::Result {
        match Ipv6Repr::parse(self) {
            Ok(repr) => write!(f, "{repr}"),
            Err(error) => write!(f, "IPv6 ({error})"),
        }
    }
}

impl<T: AsRef<[u8]> + ?Sized> fmt::Display for UdpPacket<&T> {
    fn fmt(&self, f: &mut fmt::Formatter<'_>) -> fmt::Result {
        write!(f, "UDP src={} dst={} len={}", self.src_port(), self.dst_port(), self.payload().len())
    }
}

impl<T: AsRef<[u8]> + ?Sized> fmt::Display for TcpPacket<&T> {
    fn fmt(&self, f: &mut fmt::Formatter<'_>) -> fmt::Result {
        write!(f, "TCP src={} dst={}", self.src_port(), self.dst_port())?;
        let flags = [(self.syn(), "syn"), (self.fin(), "fin"), (self.rst(), "rst"), (self.psh(), "psh")];
        for (_, name) in flags.iter().filter(|(set, _)| *set) {
            write!(f, " {name}")?;
        }
        let (seq, len) = (self.seq_number().0, self.payload().len());
        write!(f, " seq={seq}")?;
        if self.ack() {
            write!(f, " ack={}", self.ack_number().0)?;
        }
        write!(f, " win={} len={len}", self.window_len())
    }
}
