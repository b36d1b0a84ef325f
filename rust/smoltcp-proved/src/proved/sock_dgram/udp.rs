// Made from crates/sock_dgram/src/udp.rt by rust/translate: change it there.
//! UDP sockets (RFC 768): two queues of datagrams, each with the endpoint of the other side.

mod dispatch;
pub mod laws;
mod process;
mod receive;
mod send;
pub mod socket;

pub use crate::proved::sock_dgram::error::{BindError, RecvError, SendError};
pub use socket::{PacketBuffer, PacketMetadata, Socket, UdpMetadata};
