// Made from crates/bench_parts/src/clock.rt by rust/translate: change it there.
//! A clock of timestamps that stands still.

use crate::proved::sock_tcp::TsvalSource;

/// The clock.
#[derive(Debug, Clone, Copy)]
pub struct Clock;

impl TsvalSource for Clock {
    fn tsval(&self) -> u32 {
        7_000_000
    }
}
