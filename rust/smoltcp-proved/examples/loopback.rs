//! A host that talks with itself: a client sends bytes to a server over TCP, on a device that hands back what is sent.
//! Time is simulated: the clock jumps to when it is needed.
//!
//! loopback [BYTES]      Ends with 0 when all came through.
use smoltcp_proved::iface::{Config, Interface, PollResult, SocketSet};
use smoltcp_proved::phy::{Loopback, Medium};
use smoltcp_proved::socket::tcp;
use smoltcp_proved::time::{Duration, Instant};
use smoltcp_proved::wire::{HardwareAddress, IpAddress, IpCidr};

fn socket() -> tcp::Socket<'static> {
    let buffer = || tcp::SocketBuffer::new(vec![0; 8192]);
    tcp::Socket::new(buffer(), buffer())
}

fn main() {
    let total = std::env::args().nth(1).map_or(100_000, |word| word.parse().expect("a number of bytes"));
    let mut device = Loopback::new(Medium::Ip);
    let mut config = Config::new(HardwareAddress::Ip);
    config.random_seed = 1; // a host on a network has a `secret`
    let mut now = Instant::ZERO;
    let mut iface = Interface::new(config, &mut device, now);
    let here = IpAddress::v4(127, 0, 0, 1);
    iface.update_ip_addrs(|addrs| addrs.push(IpCidr::new(here, 8)).expect("room for an address"));

    let mut sockets = SocketSet::new(vec![]);
    let (server, client) = (sockets.add(socket()), sockets.add(socket()));
    sockets.get_mut::<tcp::Socket>(server).listen(80).expect("a closed socket listens");
    let socket = sockets.get_mut::<tcp::Socket>(client);
    socket.connect(iface.context(), (here, 80), 49152).expect("a closed socket connects");

    let (mut sent, mut got, mut polls) = (0, 0, 0);
    while got < total && now < Instant::from_secs(60) {
        let did = iface.poll(now, &mut device, &mut sockets);
        polls += 1;
        let socket = sockets.get_mut::<tcp::Socket>(client);
        if socket.can_send() && sent < total {
            sent += socket.send_slice(&vec![7; total - sent]).expect("an open socket sends");
        }
        let socket = sockets.get_mut::<tcp::Socket>(server);
        if socket.can_recv() {
            got += socket.recv(|bytes| (bytes.len(), bytes.len())).expect("bytes are there");
        }
        if did == PollResult::None {
            now += iface.poll_delay(now, &sockets).unwrap_or(Duration::ZERO).max(Duration::from_millis(1));
        }
    }
    assert_eq!(got, total);
    println!("{got} bytes in {polls} polls, at {now}");
}
