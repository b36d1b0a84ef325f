// Made from crates/smoltcp_socket/src/storage.rt by rust/translate: change it there.
//! Queues over lent memory, which sockets are made of.

pub use crate::proved::net_base::packet_buffer::{Empty, Full};
pub use crate::proved::net_base::{Assembler, PacketBuffer, PacketMetadata, RingBuffer, TooManyHoles};
