// Made from crates/control_wire/src/lib.rt by rust/translate: change it there.
//! The forms of TCP segments, UDP headers and ICMP messages, and the source ports of those that are whole.

pub mod icmp;
pub mod icmp_round_trips;
pub mod seq_number;
pub mod source;
pub mod tcp;
pub mod udp;

pub use icmp::{IcmpRepr, Icmpv4Repr, Icmpv6Repr};
pub use seq_number::TcpSeqNumber;
pub use source::{tcp_source, udp_source};
pub use tcp::{TcpControl, TcpRepr, TcpTimestampGenerator, TcpTimestampRepr};
pub use udp::UdpRepr;
