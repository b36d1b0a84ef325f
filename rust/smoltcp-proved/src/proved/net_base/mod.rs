// Made from crates/net_base/src/lib.rt by rust/translate: change it there.
//! What the sockets stand on: time, rings and packet buffers over lent memory, sets of offsets.

pub mod assembler;
pub mod packet_buffer;
mod packet_part;
pub mod ring_buffer;
pub mod time;

pub use assembler::{Assembler, TooManyHoles};
pub use packet_buffer::{PacketBuffer, PacketMetadata};
pub use ring_buffer::RingBuffer;
pub use time::{Duration, Instant};
