//! ICMP messages with smoltcp's names: a view of bytes, and the message that they spell. By hand, over the proved
//! [`control_wire`](crate::proved::control_wire), whose messages have a `body` where these have `data`, and a number
//! where these have a reason.
use crate::packets::{Ipv4Repr, Ipv6Repr};
use crate::proved::control_wire::icmp as proved;
use crate::proved::ip_wire::octets::word;
use crate::proved::ip_wire::sum::{checksum_after, pseudo_sum, sum_after};
use crate::proved::ip_wire::{ChecksumCapabilities, Error, Ipv6Address};
use core::fmt;

macro_rules! numbered {
    ($($(#[$doc:meta])* $name:ident { $($variant:ident = $number:literal: $what:literal),* $(,)? })*) => { $(
        $(#[$doc])*
        #[derive(Debug, Clone, Copy, PartialEq, Eq, PartialOrd, Ord, Hash)]
        pub enum $name {
            $(#[doc = $what] $variant,)*
            /// Another number.
            Unknown(u8),
        }

        impl From<u8> for $name {
            fn from(number: u8) -> $name {
                match number {
                    $($number => $name::$variant,)*
                    number => $name::Unknown(number),
                }
            }
        }

        impl From<$name> for u8 {
            fn from(name: $name) -> u8 {
                match name {
                    $($name::$variant => $number,)*
                    $name::Unknown(number) => number,
                }
            }
        }
    )* };
}

numbered! {
    /// What an ICMP message over IPv4 is (RFC 792).
    Icmpv4Message {
        EchoReply = 0: "An answer to an echo request.", DstUnreachable = 3: "A destination that is not reached.",
        Redirect = 5: "A better router.", EchoRequest = 8: "What asks for an echo.",
        RouterAdvert = 9: "A router says that it is there.", RouterSolicit = 10: "What asks for routers.",
        TimeExceeded = 11: "A packet took too long.", ParamProblem = 12: "A header that is wrong.",
        Timestamp = 13: "What asks for the time.", TimestampReply = 14: "The time.",
    }
    /// Why a destination is not reached, over IPv4.
    Icmpv4DstUnreachable {
        NetUnreachable = 0: "Its network.", HostUnreachable = 1: "It.", ProtoUnreachable = 2: "Its protocol.",
        PortUnreachable = 3: "Its port.", FragRequired = 4: "The packet is too long.",
        SrcRouteFailed = 5: "The route given.", DstNetUnknown = 6: "An unknown network.",
        DstHostUnknown = 7: "An unknown host.", SrcHostIsolated = 8: "The source is isolated.",
        NetProhibited = 9: "The network is forbidden.", HostProhibited = 10: "The host is forbidden.",
        NetUnreachToS = 11: "The network, for this service.", HostUnreachToS = 12: "The host, for this service.",
        CommProhibited = 13: "It is forbidden.", HostPrecedViol = 14: "The precedence.",
        PrecedCutoff = 15: "The precedence is too low.",
    }
    /// What took too long, over IPv4.
    Icmpv4TimeExceeded { TtlExpired = 0: "The way.", FragExpired = 1: "The wait for fragments." }
    /// What an ICMP message over IPv6 is (RFC 4443).
    Icmpv6Message {
        DstUnreachable = 1: "A destination that is not reached.", PktTooBig = 2: "A packet that is too long.",
        TimeExceeded = 3: "A packet took too long.", ParamProblem = 4: "A header that is wrong.",
        EchoRequest = 128: "What asks for an echo.", EchoReply = 129: "An answer to an echo request.",
    }
    /// Why a destination is not reached, over IPv6.
    Icmpv6DstUnreachable {
        NoRoute = 0: "No route.", AdminProhibit = 1: "It is forbidden.", BeyondScope = 2: "Beyond the scope.",
        AddrUnreachable = 3: "The address.", PortUnreachable = 4: "The port.", FailedPolicy = 5: "The source.",
        RejectRoute = 6: "The route is refused.",
    }
    /// What took too long, over IPv6.
    Icmpv6TimeExceeded { HopLimitExceeded = 0: "The way.", FragReassemExceeded = 1: "The wait for fragments." }
    /// What is wrong with a header of IPv6.
    Icmpv6ParamProblem {
        ErroneousHdrField = 0: "A field.", UnrecognizedNxtHdr = 1: "The next header.",
        UnrecognizedOption = 2: "An option.",
    }
}

type Result<T> = core::result::Result<T, Error>;

macro_rules! view {
    ($name:ident, $message:ident, $version:literal, $rest:ident, $rest_mut:ident) => {
        #[doc = concat!("The bytes of an ICMP message over ", $version, ".")]
        #[derive(Debug, Clone, PartialEq, Eq)]
        pub struct $name<T: AsRef<[u8]>> {
            buffer: T,
        }

        impl<T: AsRef<[u8]>> $name<T> {
            /// A view of these bytes: each call panics where they are too few for it.
            pub const fn new_unchecked(buffer: T) -> $name<T> {
                $name { buffer }
            }

            /// A view of these bytes; an error where they are fewer than 8.
            pub fn new_checked(buffer: T) -> Result<$name<T>> {
                let packet = $name::new_unchecked(buffer);
                packet.check_len()?;
                Ok(packet)
            }

            /// An error where the bytes are fewer than 8.
            pub fn check_len(&self) -> Result<()> {
                if self.bytes().len() < 8 { Err(Error) } else { Ok(()) }
            }

            /// The bytes.
            pub fn into_inner(self) -> T {
                self.buffer
            }

            fn bytes(&self) -> &[u8] {
                self.buffer.as_ref()
            }

            /// What the message is.
            pub fn msg_type(&self) -> $message {
                self.bytes()[0].into()
            }

            /// The code, behind the type.
            pub fn msg_code(&self) -> u8 {
                self.bytes()[1]
            }

            /// The checksum.
            pub fn checksum(&self) -> u16 {
                word(self.bytes()[2], self.bytes()[3])
            }

            /// Of an echo, whose it is.
            pub fn echo_ident(&self) -> u16 {
                word(self.bytes()[4], self.bytes()[5])
            }

            /// Of an echo, its number.
            pub fn echo_seq_no(&self) -> u16 {
                word(self.bytes()[6], self.bytes()[7])
            }

            /// The length of the header, in bytes: 8.
            pub fn header_len(&self) -> usize {
                8
            }
        }

        impl<'a, T: AsRef<[u8]> + ?Sized> $name<&'a T> {
            /// What stands behind the header.
            pub fn $rest(&self) -> &'a [u8] {
                &self.buffer.as_ref()[8..]
            }
        }

        impl<T: AsRef<[u8]> + AsMut<[u8]>> $name<T> {
            fn put(&mut self, at: usize, value: u16) {
                self.buffer.as_mut()[at..at + 2].copy_from_slice(&value.to_be_bytes());
            }

            /// Sets what the message is.
            pub fn set_msg_type(&mut self, value: $message) {
                self.buffer.as_mut()[0] = value.into();
            }

            /// Sets the code.
            pub fn set_msg_code(&mut self, value: u8) {
                self.buffer.as_mut()[1] = value;
            }

            /// Sets the checksum.
            pub fn set_checksum(&mut self, value: u16) {
                self.put(2, value);
            }

            /// Sets whose echo it is.
            pub fn set_echo_ident(&mut self, value: u16) {
                self.put(4, value);
            }

            /// Sets the number of an echo.
            pub fn set_echo_seq_no(&mut self, value: u16) {
                self.put(6, value);
            }

            /// What stands behind the header, for writing.
            pub fn $rest_mut(&mut self) -> &mut [u8] {
                &mut self.buffer.as_mut()[8..]
            }
        }

        impl<T: AsRef<[u8]>> AsRef<[u8]> for $name<T> {
            fn as_ref(&self) -> &[u8] {
                self.bytes()
            }
        }
    };
}

view!(Icmpv4Packet, Icmpv4Message, "IPv4", data, data_mut);
view!(Icmpv6Packet, Icmpv6Message, "IPv6", payload, payload_mut);

impl<T: AsRef<[u8]>> Icmpv4Packet<T> {
    /// Whether the checksum is that of the bytes.
    pub fn verify_checksum(&self) -> bool {
        sum_after(0, self.bytes()) == 0xffff
    }
}

impl<T: AsRef<[u8]> + AsMut<[u8]>> Icmpv4Packet<T> {
    /// Writes the checksum of the bytes.
    pub fn fill_checksum(&mut self) {
        self.set_checksum(0);
        let checksum = checksum_after(0, self.bytes());
        self.set_checksum(checksum);
    }
}

// The sum of the addresses, the length and the protocol (RFC 8200, section 8.1).
fn pseudo_header(src: &Ipv6Address, dst: &Ipv6Address, len: usize) -> u16 {
    pseudo_sum(&(*src).into(), &(*dst).into(), 58, len)
}

impl<T: AsRef<[u8]>> Icmpv6Packet<T> {
    /// Whether the checksum is that of the bytes and the addresses.
    pub fn verify_checksum(&self, src_addr: &Ipv6Address, dst_addr: &Ipv6Address) -> bool {
        sum_after(pseudo_header(src_addr, dst_addr, self.bytes().len()), self.bytes()) == 0xffff
    }

    // The number behind the checksum.
    fn number(&self) -> u32 {
        u32::from(self.echo_ident()) << 16 | u32::from(self.echo_seq_no())
    }

    /// Of a packet that was too long, the MTU.
    pub fn pkt_too_big_mtu(&self) -> u32 {
        self.number()
    }

    /// Of a header that is wrong, at which byte.
    pub fn param_problem_ptr(&self) -> u32 {
        self.number()
    }
}

impl<T: AsRef<[u8]> + AsMut<[u8]>> Icmpv6Packet<T> {
    /// Sets the four bytes behind the checksum to 0.
    pub fn clear_reserved(&mut self) {
        self.put(4, 0);
        self.put(6, 0);
    }

    /// Writes the checksum of the bytes and the addresses.
    pub fn fill_checksum(&mut self, src_addr: &Ipv6Address, dst_addr: &Ipv6Address) {
        self.set_checksum(0);
        let checksum = checksum_after(pseudo_header(src_addr, dst_addr, self.bytes().len()), self.bytes());
        self.set_checksum(checksum);
    }
}

/// An ICMP message over IPv4: an echo, or an error that quotes the packet that it speaks of.
#[derive(Debug, Clone, Copy, PartialEq, Eq)]
#[non_exhaustive]
#[allow(missing_docs)] // what each field is, the names say
pub enum Icmpv4Repr<'a> {
    /// What asks for an echo.
    EchoRequest { ident: u16, seq_no: u16, data: &'a [u8] },
    /// An answer to an echo request.
    EchoReply { ident: u16, seq_no: u16, data: &'a [u8] },
    /// A destination that is not reached.
    DstUnreachable { reason: Icmpv4DstUnreachable, header: Ipv4Repr, data: &'a [u8] },
    /// A packet took too long.
    TimeExceeded { reason: Icmpv4TimeExceeded, header: Ipv4Repr, data: &'a [u8] },
}

impl<'a> From<proved::Icmpv4Repr<'a>> for Icmpv4Repr<'a> {
    fn from(repr: proved::Icmpv4Repr<'a>) -> Icmpv4Repr<'a> {
        use proved::Icmpv4Repr as Proved;
        match repr {
            Proved::EchoRequest { ident, seq_no, body } => {
                Icmpv4Repr::EchoRequest { ident, seq_no, data: body }
            }
            Proved::EchoReply { ident, seq_no, body } => Icmpv4Repr::EchoReply { ident, seq_no, data: body },
            Proved::DstUnreachable { reason, header, body } => {
                Icmpv4Repr::DstUnreachable { reason: reason.into(), header: header.into(), data: body }
            }
            Proved::TimeExceeded { reason, header, body } => {
                Icmpv4Repr::TimeExceeded { reason: reason.into(), header: header.into(), data: body }
            }
        }
    }
}

impl<'a> From<Icmpv4Repr<'a>> for proved::Icmpv4Repr<'a> {
    fn from(repr: Icmpv4Repr<'a>) -> proved::Icmpv4Repr<'a> {
        use proved::Icmpv4Repr as Proved;
        match repr {
            Icmpv4Repr::EchoRequest { ident, seq_no, data } => {
                Proved::EchoRequest { ident, seq_no, body: data }
            }
            Icmpv4Repr::EchoReply { ident, seq_no, data } => Proved::EchoReply { ident, seq_no, body: data },
            Icmpv4Repr::DstUnreachable { reason, header, data } => {
                Proved::DstUnreachable { reason: reason.into(), header: header.into(), body: data }
            }
            Icmpv4Repr::TimeExceeded { reason, header, data } => {
                Proved::TimeExceeded { reason: reason.into(), header: header.into(), body: data }
            }
        }
    }
}

impl<'a> Icmpv4Repr<'a> {
    /// The message that the bytes spell; an error where the proved call of this name has one.
    pub fn parse<T: AsRef<[u8]> + ?Sized>(
        packet: &Icmpv4Packet<&'a T>,
        checksum_caps: &ChecksumCapabilities,
    ) -> Result<Icmpv4Repr<'a>> {
        proved::Icmpv4Repr::parse(packet.buffer.as_ref(), checksum_caps).map(Into::into)
    }

    /// How many bytes the message takes.
    pub fn buffer_len(&self) -> usize {
        proved::Icmpv4Repr::from(*self).buffer_len()
    }

    /// Writes the message; panics where the bytes are not `buffer_len`.
    pub fn emit<T: AsRef<[u8]> + AsMut<[u8]> + ?Sized>(
        &self,
        packet: &mut Icmpv4Packet<&mut T>,
        checksum_caps: &ChecksumCapabilities,
    ) {
        proved::Icmpv4Repr::from(*self).emit(packet.buffer.as_mut(), checksum_caps);
    }
}

/// An ICMP message over IPv6.
#[derive(Debug, Clone, Copy, PartialEq, Eq)]
#[non_exhaustive]
#[allow(missing_docs)] // what each field is, the names say
pub enum Icmpv6Repr<'a> {
    /// A destination that is not reached.
    DstUnreachable { reason: Icmpv6DstUnreachable, header: Ipv6Repr, data: &'a [u8] },
    /// A packet that is too long for a link, and the link's MTU.
    PktTooBig { mtu: u32, header: Ipv6Repr, data: &'a [u8] },
    /// A packet took too long.
    TimeExceeded { reason: Icmpv6TimeExceeded, header: Ipv6Repr, data: &'a [u8] },
    /// A header that is wrong.
    ParamProblem { reason: Icmpv6ParamProblem, pointer: u32, header: Ipv6Repr, data: &'a [u8] },
    /// What asks for an echo.
    EchoRequest { ident: u16, seq_no: u16, data: &'a [u8] },
    /// An answer to an echo request.
    EchoReply { ident: u16, seq_no: u16, data: &'a [u8] },
}

impl<'a> From<proved::Icmpv6Repr<'a>> for Icmpv6Repr<'a> {
    fn from(repr: proved::Icmpv6Repr<'a>) -> Icmpv6Repr<'a> {
        use proved::Icmpv6Repr as Proved;
        match repr {
            Proved::EchoRequest { ident, seq_no, body } => {
                Icmpv6Repr::EchoRequest { ident, seq_no, data: body }
            }
            Proved::EchoReply { ident, seq_no, body } => Icmpv6Repr::EchoReply { ident, seq_no, data: body },
            Proved::DstUnreachable { reason, header, body } => {
                Icmpv6Repr::DstUnreachable { reason: reason.into(), header: header.into(), data: body }
            }
            Proved::TimeExceeded { reason, header, body } => {
                Icmpv6Repr::TimeExceeded { reason: reason.into(), header: header.into(), data: body }
            }
            Proved::ParamProblem { reason, pointer, header, body } => {
                Icmpv6Repr::ParamProblem { reason: reason.into(), pointer, header: header.into(), data: body }
            }
        }
    }
}

impl<'a> Icmpv6Repr<'a> {
    // As the proved sources have it: all but a packet that is too long.
    fn proved(self) -> Option<proved::Icmpv6Repr<'a>> {
        use proved::Icmpv6Repr as Proved;
        Some(match self {
            Icmpv6Repr::EchoRequest { ident, seq_no, data } => {
                Proved::EchoRequest { ident, seq_no, body: data }
            }
            Icmpv6Repr::EchoReply { ident, seq_no, data } => Proved::EchoReply { ident, seq_no, body: data },
            Icmpv6Repr::DstUnreachable { reason, header, data } => {
                Proved::DstUnreachable { reason: reason.into(), header: header.into(), body: data }
            }
            Icmpv6Repr::TimeExceeded { reason, header, data } => {
                Proved::TimeExceeded { reason: reason.into(), header: header.into(), body: data }
            }
            Icmpv6Repr::ParamProblem { reason, pointer, header, data } => {
                Proved::ParamProblem { reason: reason.into(), pointer, header: header.into(), body: data }
            }
            Icmpv6Repr::PktTooBig { .. } => return None,
        })
    }
}

// A packet that is too long: the MTU, and the packet that is quoted.
fn too_big<'a, T: AsRef<[u8]> + ?Sized>(packet: &Icmpv6Packet<&'a T>) -> Result<Icmpv6Repr<'a>> {
    let quoted = packet.payload();
    if quoted.len() < 48 || quoted[0] >> 4 != 6 {
        return Err(Error);
    }
    let (header, data) = quoted.split_at(40);
    let header = crate::proved::ip_wire::Ipv6Repr::of_fields(header, data.len()).into();
    Ok(Icmpv6Repr::PktTooBig { mtu: packet.pkt_too_big_mtu(), header, data })
}

impl<'a> Icmpv6Repr<'a> {
    /// The message that the bytes spell, between these addresses; an error where the proved call of this name has one.
    pub fn parse<T: AsRef<[u8]> + ?Sized>(
        src_addr: &Ipv6Address,
        dst_addr: &Ipv6Address,
        packet: &Icmpv6Packet<&'a T>,
        checksum_caps: &ChecksumCapabilities,
    ) -> Result<Icmpv6Repr<'a>> {
        if packet.msg_type() == Icmpv6Message::PktTooBig {
            packet.check_len()?;
            let right = !checksum_caps.icmpv6.rx() || packet.verify_checksum(src_addr, dst_addr);
            return if right { too_big(packet) } else { Err(Error) };
        }
        proved::Icmpv6Repr::parse(src_addr, dst_addr, packet.buffer.as_ref(), checksum_caps).map(Into::into)
    }

    /// How many bytes the message takes.
    pub fn buffer_len(&self) -> usize {
        match self {
            Icmpv6Repr::PktTooBig { data, .. } => 48 + data.len(),
            _ => self.proved().map_or(0, |repr| repr.buffer_len()),
        }
    }

    /// Writes the message; panics where the bytes are not `buffer_len`.
    pub fn emit<T: AsRef<[u8]> + AsMut<[u8]> + ?Sized>(
        &self,
        src_addr: &Ipv6Address,
        dst_addr: &Ipv6Address,
        packet: &mut Icmpv6Packet<&mut T>,
        checksum_caps: &ChecksumCapabilities,
    ) {
        let Icmpv6Repr::PktTooBig { mtu, header, data } = self else {
            let emit = |repr: proved::Icmpv6Repr<'_>| {
                repr.emit(src_addr, dst_addr, packet.buffer.as_mut(), checksum_caps);
            };
            return self.proved().map_or((), emit);
        };
        packet.set_msg_type(Icmpv6Message::PktTooBig);
        packet.set_msg_code(0);
        packet.set_checksum(0);
        packet.buffer.as_mut()[4..8].copy_from_slice(&mtu.to_be_bytes());
        let (head, rest) = packet.payload_mut().split_at_mut(40);
        header.emit(&mut crate::packets::Ipv6Packet::new_unchecked(head));
        rest[..data.len()].copy_from_slice(data);
        if checksum_caps.icmpv6.tx() {
            packet.fill_checksum(src_addr, dst_addr);
        }
    }
}

impl<T: AsRef<[u8]> + ?Sized> fmt::Display for Icmpv4Packet<&T> {
    fn fmt(&self, f: &mut fmt::Formatter<'_>) -> fmt::Result {
        write!(f, "ICMPv4 {:?} code={} len={}", self.msg_type(), self.msg_code(), self.data().len())
    }
}

impl<T: AsRef<[u8]> + ?Sized> fmt::Display for Icmpv6Packet<&T> {
    fn fmt(&self, f: &mut fmt::Formatter<'_>) -> fmt::Result {
        write!(f, "ICMPv6 {:?} code={} len={}", self.msg_type(), self.msg_code(), self.payload().len())
    }
}

#[cfg(all(test, feature = "std"))]
mod tests {
    use super::*;
    use crate::proved::ip_wire::IpProtocol;

    #[test]
    fn a_packet_too_long_is_written_and_read() {
        let (src, dst) = (&Ipv6Address::LOCALHOST, &Ipv6Address::new(0xfd00, 0, 0, 0, 0, 0, 0, 1));
        let header = Ipv6Repr {
            src_addr: *dst,
            dst_addr: *src,
            next_header: IpProtocol::Udp,
            payload_len: 12,
            hop_limit: 3,
        };
        let repr = Icmpv6Repr::PktTooBig { mtu: 1280, header, data: b"twelve bytes" };
        let mut bytes = std::vec![0xff; repr.buffer_len()];
        let caps = ChecksumCapabilities::default();
        repr.emit(src, dst, &mut Icmpv6Packet::new_unchecked(&mut bytes), &caps);
        assert_eq!(bytes[..2], [2, 0]);
        assert_eq!(Icmpv6Repr::parse(src, dst, &Icmpv6Packet::new_unchecked(&bytes), &caps), Ok(repr));
        bytes[50] ^= 1;
        assert_eq!(Icmpv6Repr::parse(src, dst, &Icmpv6Packet::new_unchecked(&bytes), &caps), Err(Error));
        let short = Icmpv6Packet::new_unchecked(&bytes[..40]);
        assert_eq!(Icmpv6Repr::parse(src, dst, &short, &ChecksumCapabilities::ignored()), Err(Error));
    }
}
