// Made from crates/net_host/src/filing.rt by rust/translate: change it there.
//! Under which keys the socket of a place is filed.

use crate::proved::host_index::{Entry, Index, Which};
use crate::proved::net_host::filed::Keyed;
use crate::proved::net_host::key::{Key, Keys};
use crate::proved::net_host::slot::Slot;
use crate::sockets::sock_tcp::tuple::Tuple;
use crate::sockets::tcp::State;
use crate::sockets::time::Instant;
use crate::sockets::wire::IpAddress;
use crate::sockets::{Socket, tcp};

// No address has a greater number.
const LAST: u128 = u128::MAX - 1;

// An address as a number.
pub(crate) fn number_of(addr: &IpAddress) -> u128 {
    match addr {
        IpAddress::Ipv4(addr) => u128::from(u32::from_be_bytes(addr.octets())) + 0xffff_0000_0000,
        IpAddress::Ipv6(addr) => u128::from_be_bytes(addr.octets()).min(LAST),
    }
}

/// The key of a connection.
pub(crate) fn connection_key(remote: &IpAddress, local_port: u16, remote_port: u16) -> Entry {
    Entry {
        major: number_of(remote),
        minor: u64::from(local_port) * 65536 + u64::from(remote_port),
        place: 0,
    }
}

/// The key of the sockets that listen on a port.
pub(crate) fn listener_key(port: u16) -> Entry {
    Entry { major: 0, minor: u64::from(port), place: 0 }
}

// The second parts of second keys are from here on, and those of first keys below.
const HIGH: u64 = 1 << 32;

/// The key of the sockets that were opened on a port: its first part is that of those in TIME-WAIT on port 0, which
/// there are none of.
pub(crate) fn server_key(port: u16) -> Entry {
    Entry { major: 65536, minor: u64::from(port) + HIGH, place: 0 }
}

/// The key of the raw sockets: the least, so that whether there is one is seen at once.
pub(crate) fn raw_key() -> Entry {
    Entry { major: 0, minor: 0, place: 0 }
}

/// The key of the ICMP sockets.
pub(crate) fn icmp_key() -> Entry {
    Entry { major: 2, minor: 1, place: 0 }
}

/// The key of the UDP sockets that are bound to a port.
pub(crate) fn udp_key(port: u16) -> Entry {
    Entry { major: 3, minor: u64::from(port), place: 0 }
}

/// The first part of the keys of those in TIME-WAIT.
pub(crate) fn rest_major(port: u16) -> u128 {
    u128::from(port) + 65536
}

// No moment of a timer is further from zero, in microseconds.
const FARTHEST: i64 = 1 << 61;

// The number of moment 0: that of the first one is 2^32.
const ZERO: i64 = (1 << 61) + (1 << 32);

/// Whether a moment is within 2^61 microseconds of zero.
pub(crate) fn is_ordered(moment: Instant) -> bool {
    -FARTHEST <= moment.micros && moment.micros <= FARTHEST
}

/// The moment as a number of the same order, from 2^32 on, where it is within 2^61 microseconds of zero.
pub(crate) fn order(moment: Instant) -> Option<u64> {
    if moment.micros < -FARTHEST || FARTHEST < moment.micros {
        return None;
    }
    Some((moment.micros + ZERO).unsigned_abs())
}

// The key of one in TIME-WAIT.
fn rest_key(minor: u64, port: u16) -> Entry {
    Entry { major: rest_major(port), minor, place: 0 }
}

fn rest_by(minor: Option<u64>, port: u16) -> Key {
    match minor {
        Some(minor) => Key::Under(rest_key(minor, port)),
        None => Key::Nothing,
    }
}

fn tuple_of<G>(tcp: &tcp::Socket<'_, G>) -> Option<Tuple> {
    match (tcp.local_endpoint(), tcp.remote_endpoint()) {
        (Some(local), Some(remote)) => Some(Tuple { local, remote }),
        _ => None,
    }
}

fn listener_by(tuple: &Option<Tuple>, port: u16) -> Key {
    match tuple {
        None => Key::Under(listener_key(port)),
        Some(tuple) => Key::Under(listener_key(tuple.local.port)),
    }
}

fn connection_by(tuple: &Option<Tuple>) -> Key {
    match tuple {
        None => Key::Nothing,
        Some(tuple) => Key::Under(connection_key(&tuple.remote.addr, tuple.local.port, tuple.remote.port)),
    }
}

fn first_by(state: State, tuple: &Option<Tuple>, port: u16) -> Key {
    match state {
        State::Closed => Key::Nothing,
        State::Listen => listener_by(tuple, port),
        _ => connection_by(tuple),
    }
}

// The second key of a socket that was opened on a port.
fn opened_by(state: State, end: Option<Instant>, port: u16) -> Key {
    match (state, end) {
        (State::Closed | State::Listen, _) => Key::Nothing,
        (State::TimeWait, Some(end)) => rest_by(order(end), port),
        _ => Key::Under(server_key(port)),
    }
}

// No segment is for a listener on port 0, which is that of those that connected.
fn second_by(state: State, end: Option<Instant>, port: u16) -> Key {
    if port == 0 {
        return Key::Nothing;
    }
    opened_by(state, end, port)
}

fn keys_by<G>(tcp: &tcp::Socket<'_, G>) -> Keys {
    let state = tcp.state();
    let port = tcp.listen_endpoint().port;
    Keys {
        first: first_by(state, &tuple_of(tcp), port),
        second: second_by(state, tcp.time_wait_end(), port),
        free: false,
    }
}

fn one_key(first: Entry) -> Keys {
    Keys { first: Key::Under(first), second: Key::Nothing, free: false }
}

fn no_keys() -> Keys {
    Keys { first: Key::Nothing, second: Key::Nothing, free: true }
}

// Whether the place is filed under the keys of its socket and no others, told without making them. Where the answer is
// no, it says nothing: so it is of sockets that listen, which are lent once, and of those that are closed, as a place
// that was free is marked so until it is filed.
#[inline(always)]
fn is_connection_filed<G>(tcp: &tcp::Socket<'_, G>, index: &Index, place: usize) -> bool {
    match tcp.state() {
        State::Closed | State::Listen => false,
        State::TimeWait => is_tuple_filed(tcp, index, place) && is_rest_filed(tcp, index, place),
        _ => is_tuple_filed(tcp, index, place) && is_port_filed(tcp, index, place),
    }
}

#[inline(always)]
fn is_tuple_filed<G>(tcp: &tcp::Socket<'_, G>, index: &Index, place: usize) -> bool {
    match (tcp.local_endpoint(), tcp.remote_endpoint()) {
        (Some(local), Some(remote)) => {
            let key = connection_key(&remote.addr, local.port, remote.port);
            index.is_filed(Which::First, place, Some(&key))
        }
        _ => false,
    }
}

#[inline(always)]
fn is_port_filed<G>(tcp: &tcp::Socket<'_, G>, index: &Index, place: usize) -> bool {
    let port = tcp.listen_endpoint().port;
    if port == 0 {
        index.is_filed(Which::Second, place, None)
    } else {
        index.is_filed(Which::Second, place, Some(&server_key(port)))
    }
}

// Whether one in TIME-WAIT is filed so: by its end where it listened.
#[inline(always)]
fn is_rest_filed<G>(tcp: &tcp::Socket<'_, G>, index: &Index, place: usize) -> bool {
    match second_by(State::TimeWait, tcp.time_wait_end(), tcp.listen_endpoint().port) {
        Key::Nothing => index.is_filed(Which::Second, place, None),
        Key::Under(key) => index.is_filed(Which::Second, place, Some(&key)),
    }
}

impl<'a, G> Keyed for Slot<'a, G> {
    fn keys(&self) -> Keys {
        match &self.socket {
            Some(Socket::Tcp(tcp)) => keys_by(tcp),
            Some(Socket::Raw(_)) => one_key(raw_key()),
            Some(Socket::Icmp(_)) => one_key(icmp_key()),
            Some(Socket::Udp(udp)) => one_key(udp_key(udp.endpoint().port)),
            None => no_keys(),
        }
    }

    #[inline(always)]
    fn is_filed(&self, index: &Index, place: usize) -> bool {
        match &self.socket {
            Some(Socket::Tcp(tcp)) => is_connection_filed(tcp, index, place),
            _ => false,
        }
    }
}
