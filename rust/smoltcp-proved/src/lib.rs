//! TCP, UDP, ICMP and raw sockets with smoltcp's names, and a host of them, out of sources that are proved: each call
//! of them has a contract, which is proved of its body by the Rattle toolchain. This crate is those sources as plain
//! Rust, without the contracts: it needs no prover and no library, and has no `unsafe` code.
//!
//! [`proved`] has them, a module for each crate of the repository, made by its `rust/translate`. By hand, and not
//! proved, stand over them [`socket`], [`iface`], [`phy`], [`wire`], [`storage`] and [`time`], with smoltcp's names and
//! signatures: which task is woken, how a device's packets become a host's, conversions, texts and views of addresses,
//! times and packets; and below them [`kit`]: vectors and strings that may be refused memory, and ChaCha20.
//!
//! Features: `std`, on by default, for programs; `alloc`, which it turns on, for sockets and sets that own their memory
//! (without it each set has room for [`config::IFACE_MAX_SOCKET_COUNT`]); `async`, on by default, for tasks that wait;
//! `tuntap`, a TUN device of Linux; `programs`, on by default, the scripts and drills of the repository.
//!
//! ```
//! use smoltcp_proved::storage::RingBuffer;
//! use smoltcp_proved::tcp::{Socket, State};
//!
//! let (mut rx, mut tx) = ([0; 1024], [0; 1024]);
//! let mut socket = Socket::closed(RingBuffer::new(&mut rx), RingBuffer::new(&mut tx), None::<fn() -> u32>);
//! assert!(socket.state() == State::Closed);
//! ```
#![no_std]
#![deny(missing_docs, missing_debug_implementations, unsafe_code)]
#![deny(unsafe_op_in_unsafe_fn, clippy::undocumented_unsafe_blocks)]
#![cfg_attr(not(feature = "tuntap"), forbid(unsafe_code))]

#[cfg(not(any(target_pointer_width = "32", target_pointer_width = "64")))]
compile_error!("a `usize` has at least 32 bits here: lengths and offsets of a TCP window do not fit fewer");

#[cfg(feature = "alloc")]
extern crate alloc;
#[cfg(feature = "std")]
extern crate std;

mod buffers;
mod cidr;
pub mod config;
mod icmp_wire;
pub mod iface;
pub mod kit;
mod logged;
mod names;
mod own;
mod packets;
pub mod phy;
pub mod proved;
pub mod sockets;

pub use proved::smoltcp_socket::time;
pub use sockets::{AnySocket, Context, PollAt, Socket, icmp, raw, tcp, udp};

/// Queues over lent or owned memory, which sockets are made of.
pub mod storage {
    pub use crate::buffers::Resettable;
    pub use crate::proved::smoltcp_socket::storage::*;
}

/// Sockets of each kind, and of any.
pub mod socket {
    pub use crate::sockets::{AnySocket, PollAt, Socket, icmp, raw, tcp, udp};
}

/// What goes over the wire, as values: addresses, endpoints, headers, segments and messages.
pub mod wire {
    pub use crate::cidr::{IpCidr, Ipv4Cidr, Ipv6Cidr};
    pub use crate::icmp_wire::{
        Icmpv4DstUnreachable, Icmpv4Message, Icmpv4Packet, Icmpv4Repr, Icmpv4TimeExceeded,
        Icmpv6DstUnreachable, Icmpv6Message, Icmpv6Packet, Icmpv6ParamProblem, Icmpv6Repr,
        Icmpv6TimeExceeded,
    };
    pub use crate::iface::HardwareAddress;
    pub use crate::packets::{Ipv4Packet, Ipv4Repr, Ipv6Packet, Ipv6Repr, TcpPacket, UdpPacket};
    pub use crate::proved::smoltcp_socket::wire::*;

    /// What a call says of bytes.
    pub type Result<T> = core::result::Result<T, Error>;

    /// The length of an IPv4 header without options, in bytes.
    pub const IPV4_HEADER_LEN: usize = 20;
    /// The longest IPv4 packet that each host takes, in bytes (RFC 791, section 3.1).
    pub const IPV4_MIN_MTU: usize = 576;
    /// Each host of a network (RFC 1112, section 4).
    pub const IPV4_MULTICAST_ALL_SYSTEMS: Ipv4Address = Ipv4Address::new(224, 0, 0, 1);
    /// Each router of a network.
    pub const IPV4_MULTICAST_ALL_ROUTERS: Ipv4Address = Ipv4Address::new(224, 0, 0, 2);
    /// The length of an IPv6 header, in bytes.
    pub const IPV6_HEADER_LEN: usize = 40;
    /// The longest IPv6 packet that each link carries, in bytes (RFC 8200, section 5).
    pub const IPV6_MIN_MTU: usize = 1280;
    /// Each host of a link (RFC 4291, section 2.7.1).
    pub const IPV6_LINK_LOCAL_ALL_NODES: Ipv6Address = Ipv6Address::new(0xff02, 0, 0, 0, 0, 0, 0, 1);
    /// Each router of a link.
    pub const IPV6_LINK_LOCAL_ALL_ROUTERS: Ipv6Address = Ipv6Address::new(0xff02, 0, 0, 0, 0, 0, 0, 2);
    /// The length of a UDP header, in bytes.
    pub const UDP_HEADER_LEN: usize = 8;
    /// The length of a TCP header without options, in bytes.
    pub const TCP_HEADER_LEN: usize = 20;
}
