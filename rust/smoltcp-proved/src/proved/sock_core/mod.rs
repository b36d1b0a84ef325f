// Made from crates/sock_core/src/lib.rt by rust/translate: change it there.
//! What the sockets share: the context of a call and poll moments, the order of sequence numbers, held ranges, the
//! receive buffer, the estimator of the retransmission timeout, congestion control.

pub mod congestion;
pub mod context;
mod cube_root;
mod cubic;
pub mod kept;
pub mod places;
pub mod ranges;
pub mod receive_buffer;
mod reno;
pub mod rtte;
pub mod seq;

pub use context::{Context, PollAt};
pub use ranges::{Ranges, TooManyRanges};
pub use receive_buffer::ReceiveBuffer;
pub use rtte::RttEstimator;
pub use seq::{before, later, not_after, window_shift};
