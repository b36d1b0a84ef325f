// Made from crates/smoltcp_socket/src/wire.rt by rust/translate: change it there.
//! What goes over the wire, as values: addresses, endpoints, headers, segments and messages.

pub use crate::proved::control_wire::{
    IcmpRepr, Icmpv4Repr, Icmpv6Repr, TcpControl, TcpRepr, TcpSeqNumber, TcpTimestampGenerator,
    TcpTimestampRepr, UdpRepr, tcp_source, udp_source,
};
pub use crate::proved::ip_wire::{
    Checksum, ChecksumCapabilities, Error, IpAddress, IpEndpoint, IpListenEndpoint, IpProtocol, IpRepr,
    IpVersion, Ipv4Address, Ipv4Packet, Ipv4Repr, Ipv6Address, Ipv6Packet, Ipv6Repr,
};
