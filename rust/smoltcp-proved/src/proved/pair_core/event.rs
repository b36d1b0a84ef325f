// Made from crates/pair_core/src/event.rt by rust/translate: change it there.
//! What may happen to a pair of sockets.
use crate::kit::Vec;
use crate::proved::pair_core::moment::Moment;
use crate::proved::pair_core::setting::Setting;
use crate::proved::pair_core::side::Side;

/// One call on a pair of sockets.
#[derive(Debug, PartialEq, Eq)]
pub enum Event {
    /// `listen` on the side's own address and port.
    Listen { side: Side },
    /// `connect` from the side's own endpoint to the other's.
    Connect { side: Side, moment: Moment },
    /// `send_slice` of these bytes.
    SendSlice { side: Side, bytes: Vec<u8> },
    /// `send`, whose closure writes as many of these bytes as the free places that it is lent hold, and lets the
    /// smaller of `take` and their count join the queue.
    Send { side: Side, bytes: Vec<u8>, take: usize },
    /// `recv_slice` of at most so many bytes.
    RecvSlice { side: Side, size: usize },
    /// `recv`, whose closure takes the smaller of `take` and the count of bytes that it is lent.
    Recv { side: Side, take: usize },
    /// `close`.
    Close { side: Side },
    /// `abort`.
    Abort { side: Side },
    /// The setter of this setting.
    Set { side: Side, setting: Setting },
    /// `dispatch`, whose emit fails where `fail` says so.
    Dispatch { side: Side, moment: Moment, fail: bool },
    /// The stored segment of this index reaches the side that it was not sent by.
    Deliver { index: usize, moment: Moment },
}
