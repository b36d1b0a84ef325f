// Made from crates/sock_dgram/src/raw.rt by rust/translate: change it there.
//! Raw sockets: two queues of whole IP packets, of one version or any and of one protocol or any.

mod dispatch;
pub mod error;
pub mod laws;
mod process;
mod receive;
mod send;
pub mod socket;

pub use crate::proved::sock_dgram::error::{BindError, RecvError};
pub use error::SendError;
pub use socket::{PacketBuffer, PacketMetadata, Socket};
