//! Addresses, endpoints, prefixes and times, beside what the standard library says of them.
use smoltcp_proved::time::{Duration, Instant};
use smoltcp_proved::wire::{
    self, IpAddress, IpCidr, IpEndpoint, IpListenEndpoint, IpVersion, Ipv4Address, Ipv4Cidr, Ipv6Address,
    Ipv6Cidr,
};
use std::net::{IpAddr, SocketAddr, SocketAddrV4, SocketAddrV6};

#[test]
fn addresses_go_both_ways() {
    for text in [
        "0.0.0.0",
        "10.0.0.1",
        "127.0.0.1",
        "224.0.0.1",
        "255.255.255.255",
        "::",
        "::1",
        "fd00::1",
        "ff02::1",
    ] {
        let (addr, std): (IpAddress, IpAddr) = (text.parse().unwrap(), text.parse().unwrap());
        assert_eq!((IpAddr::from(addr), IpAddress::from(std)), (std, addr));
        assert_eq!(addr.to_string(), text);
        assert_eq!(addr.version() == IpVersion::Ipv4, std.is_ipv4());
        assert_eq!((addr.is_loopback(), addr.is_multicast()), (std.is_loopback(), std.is_multicast()));
        assert_eq!(addr.is_unspecified(), std.is_unspecified());
        assert_eq!(addr.is_broadcast(), text == "255.255.255.255");
        assert_eq!(addr.is_unicast(), ["10.0.0.1", "127.0.0.1", "::1", "fd00::1"].contains(&text));
    }
    assert_eq!("10.0.0".parse::<IpAddress>(), Err(()));
    assert_eq!(IpAddress::v6(0xfd00, 0, 0, 0, 0, 0, 0, 1).to_string(), "fd00::1");
    for (mask, len) in
        [("255.255.240.0", Some(20)), ("::", Some(0)), ("ffff:f800::", Some(21)), ("255.0.255.0", None)]
    {
        assert_eq!(mask.parse::<IpAddress>().map(|mask| mask.prefix_len()), Ok(len));
    }
}

/// RFC 791 and RFC 8200: the first four bits.
#[test]
fn versions() {
    assert_eq!(IpVersion::of_packet(&[0x45, 0]), Ok(IpVersion::Ipv4));
    assert_eq!(IpVersion::of_packet(&[0x60]), Ok(IpVersion::Ipv6));
    for packet in [&[][..], &[0x05], &[0x54], &[0xff; 40]] {
        assert_eq!(IpVersion::of_packet(packet), Err(wire::Error));
    }
    assert_eq!(
        (IpVersion::Ipv4.to_string(), wire::Error.to_string()),
        ("IPv4".into(), "malformed packet".into())
    );
}

#[test]
fn endpoints_go_both_ways() {
    for text in ["10.0.0.1:80", "[fd00::1]:443"] {
        let (at, std): (IpEndpoint, SocketAddr) = (text.parse().unwrap(), text.parse().unwrap());
        assert_eq!((SocketAddr::from(at), IpEndpoint::from(std)), (std, at));
        assert_eq!(at.to_string().parse(), Ok(at)); // with all groups of IPv6
        assert!(IpListenEndpoint::from(std).is_specified());
    }
    assert!(!IpListenEndpoint::from(80).is_specified());
    assert!(!IpEndpoint::new(IpAddress::v4(0, 0, 0, 0), 80).is_specified());
    assert!(!IpEndpoint::new(IpAddress::v4(10, 0, 0, 1), 0).is_specified());
    let (v4, v6) = (SocketAddrV4::new([10, 0, 0, 1].into(), 80), SocketAddrV6::new(1.into(), 443, 9, 9));
    assert_eq!(IpEndpoint::from(v4).to_string(), "10.0.0.1:80");
    assert_eq!(IpListenEndpoint::from(v4), IpEndpoint::from(v4).into());
    assert_eq!(IpListenEndpoint::from(v6).addr, Some(Ipv6Address::LOCALHOST.into()));
    assert_eq!((IpListenEndpoint::from(80).to_string(), IpEndpoint::from(v6).port), ("*:80".into(), 443));
    assert_eq!("10.0.0.1".parse::<IpEndpoint>(), Err(()));
}

#[test]
fn prefixes() {
    let cidr: IpCidr = "192.168.1.10/24".parse().unwrap();
    assert_eq!(cidr.to_string(), "192.168.1.10/24");
    assert!(cidr.contains_addr(&IpAddress::v4(192, 168, 1, 255)));
    assert!(!cidr.contains_addr(&IpAddress::v4(192, 168, 2, 1)));
    assert!(!cidr.contains_addr(&"fd00::1".parse().unwrap()));
    assert!("0.0.0.0/0".parse::<IpCidr>().unwrap().contains_subnet(&cidr));
    assert!(!cidr.contains_subnet(&"0.0.0.0/0".parse().unwrap()));
    assert!("fd00::/8".parse::<IpCidr>().unwrap().contains_addr(&"fd12::1".parse().unwrap()));
    let v4 = Ipv4Cidr::new(Ipv4Address::new(192, 168, 1, 10), 24);
    assert_eq!(v4.netmask(), Ipv4Address::new(255, 255, 255, 0));
    assert_eq!(v4.broadcast(), Some(Ipv4Address::new(192, 168, 1, 255)));
    assert_eq!(v4.network(), Ipv4Cidr::new(Ipv4Address::new(192, 168, 1, 0), 24));
    assert_eq!(Ipv4Cidr::from_netmask(v4.address(), v4.netmask()), Ok(v4));
    assert_eq!(Ipv4Cidr::from_netmask(v4.address(), Ipv4Address::new(255, 0, 255, 0)), Err(wire::Error));
    assert_eq!(Ipv4Cidr::new(v4.address(), 31).broadcast(), None);
    assert_eq!("192.168.1.10/24".parse(), Ok(v4));
    assert_eq!("fd00::/8".parse::<Ipv6Cidr>().map(|cidr| cidr.prefix_len()), Ok(8));
    assert_eq!(("fd00::/8".parse::<Ipv4Cidr>(), "10.0.0.1/8".parse::<Ipv6Cidr>()), (Err(()), Err(())));
    for text in ["10.0.0.1", "10.0.0.1/33", "fd00::/129", "10.0.0.1/-1", "/8"] {
        assert_eq!(text.parse::<IpCidr>(), Err(()));
    }
}

#[test]
fn times() {
    let (second, milli) = (Duration::from_secs(1), Duration::from_millis(1));
    assert_eq!(second + milli - milli, second);
    assert_eq!((second * 3) / 2, Duration::from_millis(1500));
    let mut length = second << 3 >> 1;
    length <<= 1;
    length >>= 2;
    assert_eq!(length, second * 2);
    assert_eq!(
        (Duration::from_micros(1_234_567).millis(), Duration::from_micros(1_234_567).micros()),
        (234, 234_567)
    );
    let at = Instant::from_millis_const(5000);
    assert_eq!((at - second, at - second + second), (Instant::from_secs(4), at));
    assert_eq!(Instant::from_micros_const(-1) - Instant::ZERO, Duration::from_micros(1));
}

#[test]
#[should_panic(expected = "overflow when subtracting durations")]
fn no_length_is_below_none() {
    let _ = Duration::ZERO - Duration::from_micros(1);
}

#[cfg(feature = "std")]
#[test]
fn the_system_clock() {
    let std = std::time::SystemTime::now();
    let lengths = Instant::now() - Instant::from(std);
    assert!(lengths < Duration::from_secs(60));
    assert_eq!(Instant::from(std::time::SystemTime::from(Instant::from_secs(-5))), Instant::from_secs(-5));
    let early = std::time::Instant::now();
    std::thread::sleep(std::time::Duration::from_millis(2));
    let ago = Instant::from(early); // how long ago it was
    assert!(ago >= Instant::from_millis(2) && ago < Instant::from_secs(60));
}
