// Made from crates/socket_script/src/lib.rt by rust/translate: change it there.
//! Drills: scripts of sockets of every kind, run, with what differs from what they expect.

mod calls;
mod capture;
mod chart;
mod clock;
mod getters;
mod line;
mod memory;
mod outbox;
mod packet;
mod play;
mod seat;
mod shown;
mod storage;
mod takes;
mod tally;

pub use play::{Stop, run};
pub use tally::{Tally, Unwritten, Wanted};
