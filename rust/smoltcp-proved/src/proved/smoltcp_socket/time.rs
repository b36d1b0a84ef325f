// Made from crates/smoltcp_socket/src/time.rt by rust/translate: change it there.
//! Moments and lengths of time.

pub use crate::proved::net_base::{Duration, Instant};
