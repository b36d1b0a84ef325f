//! What smoltcp's types of time and of addresses have beside what is proved: operators, conversions and texts.
use crate::proved::ip_wire::{
    Checksum, IpAddress, IpEndpoint, IpListenEndpoint, IpProtocol, IpVersion, Ipv4Address, Ipv6Address,
};
use crate::proved::net_base::{Duration, Instant};
use crate::proved::sock_dgram::udp::UdpMetadata;
use core::cmp::Ordering;
use core::fmt;
use core::hash::{Hash, Hasher};
use core::net::{IpAddr, SocketAddr, SocketAddrV4, SocketAddrV6};
use core::ops::{Add, AddAssign, Sub, SubAssign};
use core::str::FromStr;

impl Instant {
    /// The moment of the system's clock, counted from 1970.
    #[cfg(feature = "std")]
    pub fn now() -> Instant {
        std::time::SystemTime::now().into()
    }

    /// The time so many milliseconds after zero, as [`Instant::from_millis`] makes it.
    pub const fn from_millis_const(millis: i64) -> Instant {
        Instant { micros: millis * 1000 }
    }

    /// The time so many microseconds after zero, as [`Instant::from_micros`] makes it.
    pub const fn from_micros_const(micros: i64) -> Instant {
        Instant { micros }
    }

    /// The milliseconds behind the whole seconds.
    pub const fn millis(&self) -> i64 {
        self.micros % 1_000_000 / 1000
    }

    /// The microseconds behind the whole seconds.
    pub const fn micros(&self) -> i64 {
        self.micros % 1_000_000
    }

    /// The whole seconds after the start; what is left over is cut off, towards the start.
    pub const fn secs(&self) -> i64 {
        self.micros / 1_000_000
    }

    /// The microseconds after the start.
    pub const fn total_micros(&self) -> i64 {
        self.micros
    }
}

impl Duration {
    /// The longest.
    pub const MAX: Duration = Duration::from_micros(u64::MAX);

    /// The milliseconds behind the whole seconds.
    pub const fn millis(&self) -> u64 {
        self.micros % 1_000_000 / 1000
    }

    /// The microseconds behind the whole seconds.
    pub const fn micros(&self) -> u64 {
        self.micros % 1_000_000
    }

    /// The whole seconds.
    pub const fn secs(&self) -> u64 {
        self.micros / 1_000_000
    }

    /// The microseconds.
    pub const fn total_micros(&self) -> u64 {
        self.micros
    }
}

// As with numbers, what does not fit is an overflow.
impl Sub<Duration> for Instant {
    type Output = Instant;

    fn sub(self, length: Duration) -> Instant {
        Instant::from_micros(self.micros - length.micros as i64)
    }
}

impl AddAssign<Duration> for Instant {
    fn add_assign(&mut self, length: Duration) {
        *self = *self + length;
    }
}

impl SubAssign<Duration> for Instant {
    fn sub_assign(&mut self, length: Duration) {
        *self = *self - length;
    }
}

impl Add for Duration {
    type Output = Duration;

    fn add(self, other: Duration) -> Duration {
        Duration::from_micros(self.micros + other.micros)
    }
}

impl Sub for Duration {
    type Output = Duration;

    fn sub(self, other: Duration) -> Duration {
        Duration::from_micros(
            self.micros.checked_sub(other.micros).expect("overflow when subtracting durations"),
        )
    }
}

impl AddAssign for Duration {
    fn add_assign(&mut self, other: Duration) {
        *self = *self + other;
    }
}

impl SubAssign for Duration {
    fn sub_assign(&mut self, other: Duration) {
        *self = *self - other;
    }
}

macro_rules! scaled {
    ($($op:ident $call:ident $assign:ident $assign_call:ident |$a:ident, $b:ident| $expr:expr;)*) => { $(
        impl core::ops::$op<u32> for Duration {
            type Output = Duration;

            fn $call(self, by: u32) -> Duration {
                let ($a, $b) = (self.micros, by);
                Duration::from_micros($expr)
            }
        }

        impl core::ops::$assign<u32> for Duration {
            fn $assign_call(&mut self, by: u32) {
                *self = core::ops::$op::$call(*self, by);
            }
        }
    )* };
}

scaled! {
    Div div DivAssign div_assign |a, b| a / u64::from(b);
    Shl shl ShlAssign shl_assign |a, b| a << b;
    Shr shr ShrAssign shr_assign |a, b| a >> b;
}

impl core::ops::MulAssign<u32> for Duration {
    fn mul_assign(&mut self, by: u32) {
        *self = *self * by;
    }
}

/// Counted from 1970.
#[cfg(feature = "std")]
impl From<std::time::SystemTime> for Instant {
    fn from(moment: std::time::SystemTime) -> Instant {
        Instant::from_micros(match moment.duration_since(std::time::UNIX_EPOCH) {
            Ok(since) => since.as_micros() as i64,
            Err(before) => -(before.duration().as_micros() as i64),
        })
    }
}

/// Counted from 1970.
#[cfg(feature = "std")]
impl From<Instant> for std::time::SystemTime {
    fn from(moment: Instant) -> std::time::SystemTime {
        let far = core::time::Duration::from_micros(moment.micros.unsigned_abs());
        if moment.micros < 0 { std::time::UNIX_EPOCH - far } else { std::time::UNIX_EPOCH + far }
    }
}

/// How long ago the moment was, as in smoltcp.
#[cfg(feature = "std")]
impl From<std::time::Instant> for Instant {
    fn from(moment: std::time::Instant) -> Instant {
        Instant::from_micros(moment.elapsed().as_micros() as i64)
    }
}

/// In seconds, with three digits behind the point.
impl fmt::Display for Instant {
    fn fmt(&self, f: &mut fmt::Formatter<'_>) -> fmt::Result {
        write!(f, "{}.{:03}s", self.secs(), (self.total_millis() % 1000).abs())
    }
}

/// In seconds, with three digits behind the point.
impl fmt::Display for Duration {
    fn fmt(&self, f: &mut fmt::Formatter<'_>) -> fmt::Result {
        write!(f, "{}.{:03}s", self.secs(), self.total_millis() % 1000)
    }
}

impl From<core::time::Duration> for Duration {
    fn from(length: core::time::Duration) -> Duration {
        Duration::from_micros(length.as_micros() as u64)
    }
}

impl From<Duration> for core::time::Duration {
    fn from(length: Duration) -> core::time::Duration {
        core::time::Duration::from_micros(length.micros)
    }
}

macro_rules! converted {
    ($($from:ty => $to:ty: |$value:pat_param| $expr:expr;)*) => {
        $(impl From<$from> for $to {
            fn from($value: $from) -> $to {
                $expr
            }
        })*
    };
}

converted! {
    Ipv4Address => IpAddress: |addr| IpAddress::Ipv4(addr);
    Ipv6Address => IpAddress: |addr| IpAddress::Ipv6(addr);
    IpAddr => IpAddress: |addr| match addr {
        IpAddr::V4(addr) => addr.into(),
        IpAddr::V6(addr) => addr.into(),
    };
    IpAddress => IpAddr: |addr| match addr {
        IpAddress::Ipv4(addr) => IpAddr::V4(addr),
        IpAddress::Ipv6(addr) => IpAddr::V6(addr),
    };
    SocketAddrV4 => IpEndpoint: |addr| IpEndpoint { addr: (*addr.ip()).into(), port: addr.port() };
    SocketAddrV6 => IpEndpoint: |addr| IpEndpoint { addr: (*addr.ip()).into(), port: addr.port() };
    SocketAddrV4 => IpListenEndpoint: |addr| IpEndpoint::from(addr).into();
    SocketAddrV6 => IpListenEndpoint: |addr| IpEndpoint::from(addr).into();
    SocketAddr => IpEndpoint: |addr| IpEndpoint { addr: addr.ip().into(), port: addr.port() };
    IpEndpoint => SocketAddr: |end| SocketAddr::new(end.addr.into(), end.port);
    u16 => IpListenEndpoint: |port| IpListenEndpoint { addr: None, port };
    SocketAddr => IpListenEndpoint: |addr| IpEndpoint::from(addr).into();
    IpEndpoint => UdpMetadata: |endpoint| UdpMetadata::from_endpoint(endpoint);
    SocketAddr => UdpMetadata: |addr| UdpMetadata::from_endpoint(addr.into());
}

impl<A: Into<IpAddress>> From<(A, u16)> for IpEndpoint {
    fn from((addr, port): (A, u16)) -> IpEndpoint {
        IpEndpoint { addr: addr.into(), port }
    }
}

impl<A: Into<IpAddress>> From<(A, u16)> for IpListenEndpoint {
    fn from((addr, port): (A, u16)) -> IpListenEndpoint {
        IpListenEndpoint { addr: Some(addr.into()), port }
    }
}

impl<A: Into<IpAddress>> From<(A, u16)> for UdpMetadata {
    fn from(endpoint: (A, u16)) -> UdpMetadata {
        UdpMetadata::from_endpoint(endpoint.into())
    }
}

impl fmt::Display for IpAddress {
    fn fmt(&self, f: &mut fmt::Formatter<'_>) -> fmt::Result {
        fmt::Display::fmt(&IpAddr::from(*self), f)
    }
}

/// `10.0.0.1:80`, or `*:80` without an address.
impl fmt::Display for IpListenEndpoint {
    fn fmt(&self, f: &mut fmt::Formatter<'_>) -> fmt::Result {
        match self.addr {
            Some(addr) => fmt::Display::fmt(&IpEndpoint { addr, port: self.port }, f),
            None => write!(f, "*:{}", self.port),
        }
    }
}

impl fmt::Display for IpVersion {
    fn fmt(&self, f: &mut fmt::Formatter<'_>) -> fmt::Result {
        f.write_str(match self {
            IpVersion::Ipv4 => "IPv4",
            IpVersion::Ipv6 => "IPv6",
        })
    }
}

// Names of numbers that the sockets have no use for, as smoltcp's variants are called.
#[allow(non_upper_case_globals)]
impl IpProtocol {
    /// Options for each router (RFC 8200, section 4.3).
    pub const HopByHop: IpProtocol = IpProtocol::Unknown(0);
    /// Groups of IPv4 (RFC 3376).
    pub const Igmp: IpProtocol = IpProtocol::Unknown(2);
    /// A route (RFC 8200, section 4.4).
    pub const Ipv6Route: IpProtocol = IpProtocol::Unknown(43);
    /// A fragment (RFC 8200, section 4.5).
    pub const Ipv6Frag: IpProtocol = IpProtocol::Unknown(44);
    /// An encrypted payload (RFC 4303).
    pub const IpSecEsp: IpProtocol = IpProtocol::Unknown(50);
    /// A header that authenticates (RFC 4302).
    pub const IpSecAh: IpProtocol = IpProtocol::Unknown(51);
    /// Nothing (RFC 8200, section 4.7).
    pub const Ipv6NoNxt: IpProtocol = IpProtocol::Unknown(59);
    /// Options for the destination (RFC 8200, section 4.6).
    pub const Ipv6Opts: IpProtocol = IpProtocol::Unknown(60);
}

impl fmt::Display for IpProtocol {
    fn fmt(&self, f: &mut fmt::Formatter<'_>) -> fmt::Result {
        f.write_str(match *self {
            IpProtocol::Icmp => "ICMP",
            IpProtocol::Tcp => "TCP",
            IpProtocol::Udp => "UDP",
            IpProtocol::Icmpv6 => "ICMPv6",
            IpProtocol::HopByHop => "Hop-by-Hop",
            IpProtocol::Igmp => "IGMP",
            IpProtocol::Ipv6Route => "IPv6-Route",
            IpProtocol::Ipv6Frag => "IPv6-Frag",
            IpProtocol::IpSecEsp => "IPsec-ESP",
            IpProtocol::IpSecAh => "IPsec-AH",
            IpProtocol::Ipv6NoNxt => "IPv6-NoNxt",
            IpProtocol::Ipv6Opts => "IPv6-Opts",
            IpProtocol::Unknown(number) => return write!(f, "0x{number:02x}"),
        })
    }
}

macro_rules! hashed {
    ($($name:ty: |$value:ident| $key:expr;)*) => { $(
        impl Hash for $name {
            fn hash<H: Hasher>(&self, state: &mut H) {
                let $value = self;
                Hash::hash(&$key, state);
            }
        }
    )* };
}

hashed! {
    IpAddress: |addr| IpAddr::from(*addr);
    IpEndpoint: |end| (end.addr, end.port);
    IpListenEndpoint: |end| (end.addr, end.port);
    IpVersion: |version| *version as u8;
    IpProtocol: |protocol| u8::from(*protocol);
    Instant: |moment| moment.micros;
    Duration: |length| length.micros;
}

impl PartialOrd for IpVersion {
    fn partial_cmp(&self, other: &IpVersion) -> Option<Ordering> {
        Some(self.cmp(other))
    }
}

impl Ord for IpVersion {
    fn cmp(&self, other: &IpVersion) -> Ordering {
        (*self as u8).cmp(&(*other as u8))
    }
}

impl PartialOrd for IpProtocol {
    fn partial_cmp(&self, other: &IpProtocol) -> Option<Ordering> {
        Some(self.cmp(other))
    }
}

impl Ord for IpProtocol {
    fn cmp(&self, other: &IpProtocol) -> Ordering {
        u8::from(*self).cmp(&u8::from(*other))
    }
}

#[allow(clippy::derivable_impls)] // the type is made of the proved sources
impl Default for Duration {
    fn default() -> Duration {
        Duration::ZERO
    }
}

#[allow(clippy::derivable_impls)] // the same
impl Default for Checksum {
    fn default() -> Checksum {
        Checksum::Both
    }
}

impl IpEndpoint {
    /// Whether there is an address and a port.
    pub fn is_specified(&self) -> bool {
        !self.addr.is_unspecified() && self.port != 0
    }
}

impl IpListenEndpoint {
    /// Whether there is an address and a port.
    pub const fn is_specified(&self) -> bool {
        self.addr.is_some() && self.port != 0
    }
}

impl IpAddress {
    /// Whether the address is of one host: no group, not the broadcast, and not unspecified.
    pub fn is_unicast(&self) -> bool {
        !(self.is_multicast() || self.is_broadcast() || self.is_unspecified())
    }

    /// Whether the address is 255.255.255.255.
    pub fn is_broadcast(&self) -> bool {
        *self == IpAddress::Ipv4(Ipv4Address::BROADCAST)
    }

    /// Whether the address is the host's own: 127.0.0.0/8, or ::1.
    pub const fn is_loopback(&self) -> bool {
        match self {
            IpAddress::Ipv4(addr) => addr.is_loopback(),
            IpAddress::Ipv6(addr) => addr.is_loopback(),
        }
    }

    /// How many bits are set of an address that is a mask; none where it is none.
    pub fn prefix_len(&self) -> Option<u8> {
        let (ones, bits, all) = match self {
            IpAddress::Ipv4(addr) => (addr.to_bits().leading_ones(), addr.to_bits().count_ones(), 32),
            IpAddress::Ipv6(addr) => (addr.to_bits().leading_ones(), addr.to_bits().count_ones(), 128),
        };
        (ones == bits && ones <= all).then_some(ones as u8)
    }

    /// The IPv6 address of these eight groups.
    #[allow(clippy::too_many_arguments)] // as smoltcp's
    pub const fn v6(a: u16, b: u16, c: u16, d: u16, e: u16, f: u16, g: u16, h: u16) -> IpAddress {
        IpAddress::Ipv6(Ipv6Address::new(a, b, c, d, e, f, g, h))
    }
}

macro_rules! read {
    ($($to:ty: $from:ty;)*) => {
        $(impl FromStr for $to {
            type Err = ();

            fn from_str(text: &str) -> Result<$to, ()> {
                text.parse::<$from>().map(Into::into).map_err(|_| ())
            }
        })*
    };
}

read! {
    IpAddress: IpAddr;
    IpEndpoint: SocketAddr;
}

#[cfg(all(test, feature = "std"))]
mod tests {
    use super::*;

    #[test]
    fn texts_are_read_and_written() {
        use std::string::ToString;
        assert_eq!("10.0.0.1".parse(), Ok(IpAddress::v4(10, 0, 0, 1)));
        assert_eq!("fdaa::1".parse(), Ok(IpAddress::v6(0xfdaa, 0, 0, 0, 0, 0, 0, 1)));
        assert_eq!("10.0.0.256".parse::<IpAddress>(), Err(()));
        assert_eq!("10.0.0.1:80".parse(), Ok(IpEndpoint::new(IpAddress::v4(10, 0, 0, 1), 80)));
        assert_eq!(IpAddress::v6(0xfdaa, 0, 0, 0, 0, 0, 0, 1).to_string(), "fdaa::1");
        assert_eq!((Instant::from_millis(1234) + Duration::from_secs(1)).to_string(), "2.234s");
    }
}
