// Made from crates/ip_wire/src/lib.rt by rust/translate: change it there.
//! Addresses, endpoints, checksums, and the headers of IPv4 and IPv6, as values and as bytes.

pub mod address;
pub mod checksum;
pub mod endpoint;
pub mod malformed;
pub mod octets;
pub mod packet;
pub mod protocol;
pub mod repr;
pub mod round_trips;
pub mod sum;

pub use address::{IpAddress, Ipv4Address, Ipv6Address};
pub use checksum::{Checksum, ChecksumCapabilities};
pub use endpoint::{IpEndpoint, IpListenEndpoint};
pub use malformed::Error;
pub use packet::{Ipv4Packet, Ipv6Packet};
pub use protocol::{IpProtocol, IpVersion};
pub use repr::{IpRepr, Ipv4Repr, Ipv6Repr};
