//! What the crate's values write where they are logged, and what it tells of its own (live/rust).
use smoltcp_proved::iface::{Config, Interface, SocketSet};
use smoltcp_proved::phy::{Loopback, Medium};
use smoltcp_proved::socket::tcp::{self, ConnectError, Rules, State};
use smoltcp_proved::socket::{PollAt, icmp, udp};
use smoltcp_proved::time::{Duration, Instant};
use smoltcp_proved::wire::{HardwareAddress, IpAddress, IpCidr, IpEndpoint};

fn values() {
    let endpoint = IpEndpoint::from((IpAddress::v4(10, 0, 0, 2), 80));
    assert_eq!(defmt::text(&endpoint), "10.0.0.2:80");
    assert_eq!(defmt::text(&endpoint.addr), "10.0.0.2");
    assert_eq!(defmt::text(&"fd00::/64".parse::<IpCidr>().unwrap()), "fd00::/64");
    assert_eq!(defmt::text(&udp::UdpMetadata::from(endpoint)), udp::UdpMetadata::from(endpoint).to_string());
    assert_eq!(defmt::text(&State::SynSent), State::SynSent.to_string());
    assert_eq!(defmt::text(&Rules::Rfc), "Rfc");
    assert_eq!(defmt::text(&PollAt::Ingress), "Ingress");
    assert_eq!(defmt::text(&icmp::Endpoint::Ident(7)), "Ident(7)");
    assert_eq!(defmt::text(&ConnectError::InvalidState), ConnectError::InvalidState.to_string());
    assert_eq!(defmt::text(&Duration::from_millis(1500)), Duration::from_millis(1500).to_string());
    assert_eq!(defmt::text(&Instant::from_millis(1500)), Instant::from_millis(1500).to_string());
}

fn main() {
    values();
    let mut device = Loopback::new(Medium::Ip);
    let mut iface = Interface::new(Config::new(HardwareAddress::Ip), &mut device, Instant::ZERO);
    let own = IpAddress::v4(127, 0, 0, 1);
    iface.update_ip_addrs(|addrs| addrs.push(IpCidr::new(own, 8)).expect("room"));
    let mut sockets = SocketSet::new(vec![]);
    let buffer = || tcp::SocketBuffer::new(vec![0; 64]);
    let handle = sockets.add(tcp::Socket::new(buffer(), buffer()));
    let socket = sockets.get_mut::<tcp::Socket>(handle);
    socket.connect(iface.context(), (IpAddress::v4(127, 0, 0, 2), 80), 49152).expect("connects");
    for millis in [0, 1, 2000, 2001] {
        iface.poll(Instant::from_millis(millis), &mut device, &mut sockets);
    }
    let said = [defmt::taken(), log::taken()].map(|lines| lines.join("\n"));
    let wanted = [
        "127.0.0.1:49152 -> 127.0.0.2:80: CLOSED => SYN-SENT",
        "127.0.0.1:49152 -> 127.0.0.2:80: sends again from",
        "dropped: source",
    ];
    for (by, lines) in ["defmt", "log"].iter().zip(&said) {
        for line in wanted {
            assert!(lines.contains(line), "{by} is not told {line:?}:\n{lines}");
        }
    }
    println!("{}", said[0]);
}
