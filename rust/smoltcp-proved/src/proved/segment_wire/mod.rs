// Made from crates/segment_wire/src/lib.rt by rust/translate: change it there.
//! TCP segments and UDP datagrams as bytes, alone and in IP packets of both versions.

pub mod options;
pub mod packet;
mod pseudo;
pub mod round_trips;
pub mod tcp;
pub mod udp;
mod write;
