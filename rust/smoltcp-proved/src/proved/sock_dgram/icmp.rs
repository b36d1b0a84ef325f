// Made from crates/sock_dgram/src/icmp.rt by rust/translate: change it there.
//! ICMP sockets (RFC 792, RFC 4443): two queues of ICMP messages, each with the address of the other side.

mod dispatch;
pub mod endpoint;
pub mod laws;
mod process;
mod receive;
mod send;
pub mod socket;

pub use crate::proved::sock_dgram::error::{BindError, RecvError, SendError};
pub use endpoint::Endpoint;
pub use socket::{PacketBuffer, PacketMetadata, Socket};
