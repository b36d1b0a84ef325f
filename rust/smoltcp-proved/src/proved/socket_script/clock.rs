// Made from crates/socket_script/src/clock.rt by rust/translate: change it there.
//! The clock of a socket's timestamps.

use crate::proved::sock_tcp::TsvalSource;

/// A clock that stands: each timestamp has this value.
#[derive(Clone, Copy)]
pub struct Clock(pub u32);

impl TsvalSource for Clock {
    fn tsval(&self) -> u32 {
        self.0
    }
}
