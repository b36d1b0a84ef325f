//! A host: addresses, sockets and a device, with smoltcp's signatures, over the proved [`net_host`].
//!
//! By hand, and not proved: how a device's tokens become packets of [`net_host::Interface`], and the table from a
//! [`SocketHandle`] to one of [`net_host::SocketSet`]. Which socket hears a packet, who speaks next and when to look
//! again is proved there.
use crate::kit::alloc::Global;
use crate::logged::{TOLD, tell};
use crate::own;
use crate::phy::{Device, Medium, RxToken, TxToken};
use crate::proved::ip_wire::{IpAddress, Ipv4Address, Ipv6Address};
use crate::proved::net_base::{Duration, Instant};
use crate::proved::net_host::counters::Counters;
use crate::proved::net_host::{self, Secret};
use crate::sockets::{Context as _, PollAt};
use crate::wire::IpCidr;
use core::fmt;

mod buffer;
mod fixed;
mod foreign;
mod routes;
mod set;

pub use crate::config::{IFACE_MAX_ADDR_COUNT, IFACE_MAX_ROUTE_COUNT};
pub use crate::proved::host_groups::MulticastError;
use buffer::Buffer;
pub use fixed::{Blank, FixedVec};
pub(crate) use foreign::FOREIGN;
pub use routes::{Route, RouteTableFull, Routes};
pub(crate) use set::handle_at;
pub use set::{Places, SocketHandle, SocketSet, SocketStorage};

// Room for the longest reply of a TCP socket, whatever the MTU.
const LEAST_ROOM: usize = 100;

/// The address of an interface on its medium: IP packets have none.
#[derive(Debug, Clone, Copy, PartialEq, Eq, PartialOrd, Ord, Hash)]
#[non_exhaustive]
pub enum HardwareAddress {
    /// None, on a medium of IP packets.
    Ip,
}

impl HardwareAddress {
    /// Its bytes: none.
    pub const fn as_bytes(&self) -> &[u8] {
        &[]
    }

    /// Whether it is of one host: it is of none.
    pub fn is_unicast(&self) -> bool {
        false
    }

    /// Whether it is of each host: it is of none.
    pub fn is_broadcast(&self) -> bool {
        false
    }
}

impl fmt::Display for HardwareAddress {
    fn fmt(&self, f: &mut fmt::Formatter<'_>) -> fmt::Result {
        f.write_str("no hardware addr")
    }
}

impl fmt::Display for MulticastError {
    fn fmt(&self, f: &mut fmt::Formatter<'_>) -> fmt::Result {
        f.write_str(match self {
            MulticastError::GroupTableFull => "GroupTableFull",
            MulticastError::Unaddressable => "Unaddressable",
        })
    }
}

impl core::error::Error for MulticastError {}

/// What an interface begins with.
#[derive(Debug, Clone)]
#[non_exhaustive]
pub struct Config {
    /// Of the random words where there is no `secret`: whoever tells it tells each initial sequence number.
    pub random_seed: u64,
    /// The key of the random words: 32 bytes that nobody can tell (RFC 6528), drawn anew at each start.
    pub secret: Option<[u8; 32]>,
    /// The address on the medium.
    pub hardware_addr: HardwareAddress,
}

impl Config {
    /// A seed of 0, and no secret.
    pub fn new(hardware_addr: HardwareAddress) -> Config {
        Config { random_seed: 0, secret: None, hardware_addr }
    }

    fn key(&self) -> [u8; 32] {
        let mut key = [0; 32];
        key[..8].copy_from_slice(&self.random_seed.to_le_bytes());
        self.secret.unwrap_or(key)
    }
}

/// Whether a poll did anything.
#[derive(Debug, Clone, Copy, PartialEq, Eq)]
pub enum PollResult {
    /// No packet came or went.
    None,
    /// A packet came or went, so sockets may be in another state.
    SocketStateChanged,
}

/// What one turn of [`Interface::poll_ingress_single`] did.
#[derive(Debug, Clone, Copy, PartialEq, Eq)]
pub enum PollIngressSingleResult {
    /// No packet waited.
    None,
    /// A packet was taken that no socket has heard.
    PacketProcessed,
    /// A packet was taken, and sockets may be in another state.
    SocketStateChanged,
}

/// The context of sockets' calls.
pub type Context = net_host::inner::InterfaceInner<Secret>;

/// A host on a device.
pub struct Interface {
    host: net_host::Interface<Secret>,
    hardware_addr: HardwareAddress,
    addresses: FixedVec<IpCidr, IFACE_MAX_ADDR_COUNT>,
    // what goes out, before the device has room for it
    packet: Buffer,
    // of the device
    loops_back: bool,
    routes: Routes,
    any_ip: bool,
    // for which it answers beside the own ones
    foreign: FixedVec<IpCidr, FOREIGN>,
    reassembly_timeout: Duration,
}

impl fmt::Debug for Interface {
    fn fmt(&self, f: &mut fmt::Formatter<'_>) -> fmt::Result {
        f.debug_struct("Interface").field("ip_addrs", &self.ip_addrs().len()).finish_non_exhaustive()
    }
}

impl Interface {
    /// An interface without an address, with the device's MTU and checksums.
    ///
    /// # Panics
    /// Where the device carries something else than IP packets.
    pub fn new(config: Config, device: &mut (impl Device + ?Sized), now: Instant) -> Interface {
        let mut host = net_host::Interface::new(crate::kit::Vec::new(Global), Secret::new(config.key()));
        // as smoltcp's connections, which last as long as their sockets' own settings say
        host.set_guards(net_host::GuardSettings::off());
        // by which sources share the limits of RSTs and ICMP errors
        let key = u64::from(host.rand_u32()) << 32 | u64::from(host.rand_u32());
        host.set_answer_key(key);
        let hardware_addr = config.hardware_addr;
        let medium = device.capabilities().medium;
        assert!(medium == Medium::Ip, "The hardware address does not match the medium of the interface.");
        let mut interface = Interface {
            host,
            hardware_addr,
            addresses: FixedVec::new(),
            packet: Buffer::new(),
            loops_back: false,
            routes: Routes::default(),
            any_ip: false,
            foreign: FixedVec::new(),
            reassembly_timeout: Duration::from_secs(60),
        };
        interface.fit(device);
        interface.set_now(now);
        interface
    }

    fn fit(&mut self, device: &(impl Device + ?Sized)) {
        let capabilities = device.capabilities();
        self.host.set_mtu(buffer::fitting(capabilities.ip_mtu()));
        self.host.set_checksums(capabilities.checksum);
        self.loops_back = capabilities.loops_back;
        self.packet.fit(self.host.ip_mtu().max(LEAST_ROOM));
    }

    fn set_now(&mut self, now: Instant) {
        self.host.inner.environment.set_now(now);
    }

    /// The context of sockets' calls.
    pub fn context(&mut self) -> &mut Context {
        self.host.context()
    }

    /// The address on the medium.
    pub fn hardware_addr(&self) -> HardwareAddress {
        self.hardware_addr
    }

    /// Sets the address on the medium.
    pub fn set_hardware_addr(&mut self, addr: HardwareAddress) {
        self.hardware_addr = addr;
    }

    /// The host below, with what it has beyond smoltcp: guards that end connections (off), SYN cookies (off), counters.
    pub fn host_mut(&mut self) -> &mut net_host::Interface<Secret> {
        &mut self.host
    }

    /// The addresses.
    pub fn ip_addrs(&self) -> &[IpCidr] {
        &self.addresses
    }

    /// The first IPv4 address.
    pub fn ipv4_addr(&self) -> Option<Ipv4Address> {
        self.ip_addrs().iter().find_map(|cidr| match cidr.address() {
            IpAddress::Ipv4(addr) => Some(addr),
            IpAddress::Ipv6(_) => None,
        })
    }

    /// The first IPv6 address.
    pub fn ipv6_addr(&self) -> Option<Ipv6Address> {
        self.ip_addrs().iter().find_map(|cidr| match cidr.address() {
            IpAddress::Ipv6(addr) => Some(addr),
            IpAddress::Ipv4(_) => None,
        })
    }

    /// The own address from which a packet to this one is sent.
    pub fn get_source_address(&self, dst_addr: &IpAddress) -> Option<IpAddress> {
        self.host.get_source_address(dst_addr)
    }

    /// The own IPv4 address from which a packet to this one is sent.
    pub fn get_source_address_ipv4(&self, dst_addr: &Ipv4Address) -> Option<Ipv4Address> {
        self.host.inner.get_source_address_ipv4(dst_addr)
    }

    /// The own IPv6 address from which a packet to this one is sent; the unspecified one where there is none.
    pub fn get_source_address_ipv6(&self, dst_addr: &Ipv6Address) -> Ipv6Address {
        self.host.inner.get_source_address_ipv6(dst_addr)
    }

    /// Lets `f` change the addresses.
    ///
    /// # Panics
    /// Where one that is left is of a group, or the broadcast.
    pub fn update_ip_addrs<F: FnOnce(&mut FixedVec<IpCidr, IFACE_MAX_ADDR_COUNT>)>(&mut self, f: F) {
        f(&mut self.addresses);
        for addr in self.addresses.iter().map(IpCidr::address) {
            assert!(addr.is_unicast() || addr.is_unspecified(), "IP address {addr} is not unicast");
        }
        self.foreign.clear();
        self.tell_addresses();
    }

    /// The routes.
    pub fn routes(&self) -> &Routes {
        &self.routes
    }

    /// The routes, for writing.
    pub fn routes_mut(&mut self) -> &mut Routes {
        &mut self.routes
    }

    /// Takes packets to each address whose route leads through an own address, from now on, or no longer.
    pub fn set_any_ip(&mut self, any_ip: bool) {
        self.any_ip = any_ip;
        if !any_ip {
            self.foreign.clear();
            self.tell_addresses();
        }
    }

    /// Whether such packets are taken.
    pub fn any_ip(&self) -> bool {
        self.any_ip
    }

    /// How long fragments would be kept. They are dropped, whatever is set.
    pub fn reassembly_timeout(&self) -> Duration {
        self.reassembly_timeout
    }

    /// Sets how long fragments would be kept.
    pub fn set_reassembly_timeout(&mut self, timeout: Duration) {
        self.reassembly_timeout = timeout;
    }

    /// Whether the interface has this address.
    pub fn has_ip_addr<T: Into<IpAddress>>(&self, addr: T) -> bool {
        self.host.inner.environment.has_ip_addr(&addr.into())
    }

    /// Joins a group; nobody is told of it by IGMP or MLD.
    pub fn join_multicast_group<T: Into<IpAddress>>(&mut self, addr: T) -> Result<(), MulticastError> {
        self.host.join_multicast_group(addr.into())
    }

    /// Leaves a group.
    pub fn leave_multicast_group<T: Into<IpAddress>>(&mut self, addr: T) -> Result<(), MulticastError> {
        self.host.leave_multicast_group(addr.into())
    }

    /// Whether a group was joined.
    pub fn has_multicast_group<T: Into<IpAddress>>(&self, addr: T) -> bool {
        self.host.has_multicast_group(addr.into())
    }
}

// Tells who logs which packets were dropped between two moments.
fn tell_dropped(before: Counters, after: Counters) {
    if !TOLD {
        return;
    }
    let counts = |of: Counters| {
        let first = [of.malformed, of.source, of.destination, of.protocol, of.segment, of.datagram];
        (first, [of.message, of.busy, of.nobody, of.full, of.too_long, of.unsent])
    };
    let ((a, b), (c, d)) = (counts(before), counts(after));
    let reasons = ["malformed", "source", "destination", "protocol", "segment", "datagram"];
    let others = ["message", "busy", "nobody", "full queue", "too long", "no source"];
    let pairs = a.iter().zip(&c).zip(&reasons).chain(b.iter().zip(&d).zip(&others));
    for (_, reason) in pairs.filter(|((before, after), _)| before != after) {
        tell!("dropped: {}", *reason);
    }
}

// Packets, and when to look again.
impl Interface {
    /// Takes all packets that have arrived, and then sends what sockets have to say.
    pub fn poll(
        &mut self,
        timestamp: Instant,
        device: &mut (impl Device + ?Sized),
        sockets: &mut SocketSet<'_>,
    ) -> PollResult {
        let mut heard = false;
        while self.poll_ingress_single(timestamp, device, sockets) != PollIngressSingleResult::None {
            heard = true;
        }
        let spoken = self.poll_egress(timestamp, device, sockets);
        if heard { PollResult::SocketStateChanged } else { spoken }
    }

    /// Takes one packet that has arrived, and sends its answer.
    pub fn poll_ingress_single(
        &mut self,
        timestamp: Instant,
        device: &mut (impl Device + ?Sized),
        sockets: &mut SocketSet<'_>,
    ) -> PollIngressSingleResult {
        self.fit(device);
        let Some((arrived, room)) = device.receive(timestamp) else { return PollIngressSingleResult::None };
        let before = self.host.counters();
        let len = arrived.consume(|packet| {
            if self.any_ip {
                self.take_on(timestamp, packet, sockets);
            }
            let (host, reply, set) = (&mut self.host, self.packet.bytes(), sockets.set_mut());
            let own = own::hear(host, self.loops_back, set, timestamp, packet, reply);
            // `fit` has made room
            own.unwrap_or_else(|| host.receive(sockets.set_mut(), timestamp, packet, reply).unwrap_or(0))
        });
        if len > 0 {
            room.consume(len, |packet| packet.copy_from_slice(&self.packet.bytes()[..len]));
        }
        let after = self.host.counters();
        tell_dropped(before, after);
        if (before.malformed, before.source) != (after.malformed, after.source) {
            return PollIngressSingleResult::PacketProcessed;
        }
        PollIngressSingleResult::SocketStateChanged
    }

    /// Sends what sockets have to say, until none has anything, or the device has no room.
    pub fn poll_egress(
        &mut self,
        timestamp: Instant,
        device: &mut (impl Device + ?Sized),
        sockets: &mut SocketSet<'_>,
    ) -> PollResult {
        self.fit(device);
        let (mut result, mut refused) = (PollResult::None, 0);
        let before = self.host.counters();
        let set = sockets.set_mut();
        // a datagram that is longer than the MTU stays with its socket, and each such socket has one turn
        while refused <= set.capacity() {
            let Some(room) = device.transmit(timestamp) else { break };
            match self.host.emit(set, timestamp, self.packet.bytes()) {
                Ok(0) => break,
                Ok(len) => {
                    room.consume(len, |packet| packet.copy_from_slice(&self.packet.bytes()[..len]));
                    (result, refused) = (PollResult::SocketStateChanged, 0);
                }
                Err(_) => refused += 1,
            }
        }
        tell_dropped(before, self.host.counters());
        result
    }

    /// What a poll does beside packets: it looks at the clock.
    pub fn poll_maintenance(&mut self, timestamp: Instant) {
        self.set_now(timestamp);
    }

    /// When a socket has something to do: a moment in the past or `timestamp` for at once, none before a packet comes.
    pub fn poll_at(&mut self, timestamp: Instant, sockets: &SocketSet<'_>) -> Option<Instant> {
        self.set_now(timestamp);
        match self.host.poll_at(sockets.set()) {
            PollAt::Now => Some(timestamp),
            PollAt::Time(moment) => Some(moment),
            PollAt::Ingress => None,
        }
    }

    /// How long nothing is to be done, unless a packet comes.
    pub fn poll_delay(&mut self, timestamp: Instant, sockets: &SocketSet<'_>) -> Option<Duration> {
        let moment = self.poll_at(timestamp, sockets)?;
        Some(if timestamp < moment { moment - timestamp } else { Duration::ZERO })
    }
}
