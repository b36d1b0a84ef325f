// Made from crates/pair_core/src/equality.rt by rust/translate: change it there.
//! What `==` of some types of a pair says, as laws: of a derived `==` it is known that it is an equivalence, and these
//! say that it compares all. Of `Event`, `Header` and `Segment` it is not proved.

use crate::proved::pair_core::moment::Moment;
use crate::proved::pair_core::outcome::{Outcome, PairError};
use crate::proved::pair_core::setting::Setting;
use crate::proved::pair_core::side::Side;
use crate::proved::sock_tcp::{RecvError, SendError};

/// Outcomes are equal where they are the same, their bytes compared one by one.
pub fn outcomes_are_equal(p: &Outcome, q: &Outcome) -> bool {
    p == q
}

/// Moments are equal where their values are (`moment_value`).
pub fn moments_are_equal(p: &Moment, q: &Moment) -> bool {
    p == q
}

/// Settings are equal where what they hold is.
pub fn settings_are_equal(p: &Setting, q: &Setting) -> bool {
    p == q
}

/// So are sides.
pub fn sides_are_equal(p: Side, q: Side) -> bool {
    p == q
}

/// And the errors of a pair and of its sockets.
pub fn errors_are_equal(
    pairs: (PairError, PairError),
    sends: (SendError, SendError),
    receives: (RecvError, RecvError),
) -> (bool, bool, bool) {
    (pairs.0 == pairs.1, sends.0 == sends.1, receives.0 == receives.1)
}
