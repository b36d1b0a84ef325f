// Made from crates/sock_tcp/src/generator.rt by rust/translate: change it there.
//! The source of timestamps (RFC 7323, section 3).

use crate::proved::control_wire::TcpTimestampGenerator;
use crate::proved::sock_tcp::control_block::ControlBlock;
use crate::proved::sock_tcp::socket::Socket;
use core::fmt;

/// A source of timestamps, which may be called at any time.
///
/// The fact that it may be called stands beside the function, so that what holds a generator can call it.
#[derive(Clone, Copy)]
pub struct Generator {
    pub(crate) call: TcpTimestampGenerator,
}

impl Generator {
    pub(crate) fn new(call: TcpTimestampGenerator) -> Generator {
        Generator { call }
    }
}

/// Tells the value of a timestamp clock.
pub trait TsvalSource: Copy {
    /// The value of the clock.
    fn tsval(&self) -> u32;
}

impl TsvalSource for Generator {
    fn tsval(&self) -> u32 {
        (self.call)()
    }
}

impl fmt::Debug for Generator {
    fn fmt(&self, f: &mut fmt::Formatter<'_>) -> fmt::Result {
        f.write_str("Generator")
    }
}

impl<'a> ControlBlock<'a> {
    // Whether segments carry a timestamp.
    pub(crate) fn stamps(&self) -> bool {
        self.stamps
    }
}

impl<'a> Socket<'a> {
    /// Sets the source of the timestamps that the socket sends, or takes it away, as smoltcp: a function that may
    /// always be called. It is to be set before the socket is opened: timestamps are agreed on by the SYNs (RFC 7323,
    /// section 3.2).
    pub fn set_tsval_generator(&mut self, generator: Option<TcpTimestampGenerator>) {
        self.control_block.stamps = generator.is_some();
        self.tsval_generator = match generator {
            None => None,
            Some(call) => Some(Generator::new(call)),
        };
    }
}

impl<'a, G: TsvalSource> Socket<'a, G> {
    /// The value of the clock that the socket's timestamps are of, where it has one.
    pub fn tsval(&self) -> Option<u32> {
        match &self.tsval_generator {
            None => None,
            Some(generator) => Some(generator.tsval()),
        }
    }

    /// Sets the source of the timestamps that the socket sends, of its own kind, or takes it away; as
    /// `set_tsval_generator`, before the socket is opened.
    pub fn set_tsval_source(&mut self, source: Option<G>) {
        self.control_block.stamps = source.is_some();
        self.tsval_generator = source;
    }
}

impl<'a, G> Socket<'a, G> {
    /// Whether the socket has a source of timestamps, so that segments carry one; a new socket has none.
    pub fn timestamp_enabled(&self) -> bool {
        self.control_block.stamps
    }
}
