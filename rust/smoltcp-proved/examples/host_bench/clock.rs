// Made from crates/host_bench/src/clock.rt by rust/translate: change it there.
//! No clock of timestamps: the type of a socket's source, where it has none.

use smoltcp_proved::sockets::sock_tcp::TsvalSource;

/// A clock that stands still. No socket is given one.
#[derive(Debug, Clone, Copy)]
pub struct Clock;

impl TsvalSource for Clock {
    fn tsval(&self) -> u32 {
        0
    }
}
