// Made from crates/pair_core/src/lib.rt by rust/translate: change it there.
//! Two TCP sockets and every segment that they emitted.

mod capture;
pub mod equality;
pub mod event;
mod host;
pub mod laws;
pub mod moment;
pub mod outcome;
pub mod pair;
pub mod segment;
pub mod setting;
pub mod side;
pub mod streams;
mod wire;

pub use event::Event;
pub use moment::Moment;
pub use outcome::{Outcome, PairError};
pub use pair::{Pair, Setup};
pub use segment::Segment;
pub use setting::{HopLimit, Interval, Setting};
pub use side::Side;
pub use wire::too_old;
