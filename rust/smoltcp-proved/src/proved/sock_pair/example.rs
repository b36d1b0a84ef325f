// Made from crates/sock_pair/src/example.rt by rust/translate: change it there.
//! Functions of a user's own over a pair: what is promised of a pair stands in their clauses, and no proof file is
//! needed.

use crate::kit::Vec;
use crate::proved::pair_core::{Event, Outcome, Pair, PairError, Side};
use crate::proved::sock_tcp::{RecvError, TsvalSource};

/// Runs any events, whatever they lose, repeat or reorder.
///
/// What each side handed out is a beginning of what the other accepted, acknowledgements released only bytes that the
/// other side took, and of each event `Ran` says that its read was complete and its delivery prompt.
pub fn run_any<G: TsvalSource>(
    pair: &mut Pair<'_, G>,
    events: &[Event],
    outcomes: &mut Vec<Outcome>,
) -> Result<(), PairError> {
    pair.run(events, outcomes)
}

/// Reads at most `size` bytes, and answers whether the stream has ended: then the other side was closed by its caller,
/// and this side has handed out all that it ever accepted.
pub fn read_to_the_end<G: TsvalSource>(
    pair: &mut Pair<'_, G>,
    side: Side,
    size: usize,
) -> Result<bool, PairError> {
    match pair.step(&Event::RecvSlice { side, size })? {
        Outcome::RecvRefused(RecvError::Finished) => Ok(true),
        _ => Ok(false),
    }
}

/// Whether b's bytes so far are the first of a's. It is always so.
pub fn is_in_order<G: TsvalSource>(pair: &mut Pair<'_, G>, event: &Event) -> Result<bool, PairError> {
    pair.step(event)?;
    Ok(pair.accepted(Side::A).starts_with(pair.handed_out(Side::B)))
}
