// Made from crates/script_chart/src/history.rt by rust/translate: change it there.
//! What came of a script, step by step.

use crate::kit::Vec;
use crate::proved::sock_pair::script::lines::Lines;
use crate::proved::sock_pair::script::{End, NoTimestamps};
use crate::proved::sock_pair::{Event, Moment, Outcome, Pair, Side};
use crate::proved::sock_tcp::State;

/// An event that was done.
pub struct Step<'e> {
    /// The number of its line in the script.
    pub line: usize,
    pub event: &'e Event,
    pub outcome: Outcome,
    /// The states of a and of b behind it.
    pub a: State,
    pub b: State,
    /// Whether it changed one of them.
    pub moved: bool,
}

impl Step<'_> {
    /// The state of a side behind the step.
    pub fn state(&self, side: Side) -> State {
        match side {
            Side::A => self.a,
            Side::B => self.b,
        }
    }

    /// The milliseconds at which a segment was asked for or delivered; none of a call.
    pub fn millis(&self) -> Option<u64> {
        match self.event {
            Event::Dispatch { moment, .. } | Event::Deliver { moment, .. } => Some(millis(moment)),
            _ => None,
        }
    }

    /// The index of the reply to what was delivered.
    pub fn reply(&self) -> Option<usize> {
        match &self.outcome {
            Outcome::Delivered(reply) | Outcome::NotAccepted(reply) => *reply,
            _ => None,
        }
    }

    /// The index of what was emitted, as a reply or not.
    pub fn emitted(&self) -> Option<usize> {
        match &self.outcome {
            Outcome::Emitted(index) => Some(*index),
            _ => self.reply(),
        }
    }

    /// The index of what came to the other side, and was taken there.
    pub fn delivered(&self) -> Option<usize> {
        match (self.event, &self.outcome) {
            (Event::Deliver { index, .. }, Outcome::Delivered(_)) => Some(*index),
            _ => None,
        }
    }

    /// Whether this step says the same as the one before it, so that both have one row: nothing was to be sent, again
    /// of the same side, and no state changed.
    pub fn repeats(&self, before: &Step<'_>) -> bool {
        !self.moved && !before.moved && is_quiet_again(before, self)
    }
}

fn is_quiet_again(before: &Step<'_>, after: &Step<'_>) -> bool {
    match (before.quiet_side(), after.quiet_side()) {
        (Some((first, before)), Some((second, after))) => first == second && before == after,
        _ => false,
    }
}

impl Step<'_> {
    // The side that had nothing to send, and whether its address was there.
    fn quiet_side(&self) -> Option<(Side, bool)> {
        match (self.event, &self.outcome) {
            (Event::Dispatch { side, moment, .. }, Outcome::Quiet) => Some((*side, moment.has_address)),
            _ => None,
        }
    }
}

fn millis(moment: &Moment) -> u64 {
    let millis = moment.now.total_millis();
    if millis < 0 { 0 } else { millis as u64 }
}

/// Performs the events in turn, up to the first for which there is no memory, and notes what each came to. `lines` are
/// those of the events.
pub fn run<'e>(
    pair: &mut Pair<'_, NoTimestamps>,
    events: &'e [Event],
    lines: &mut Lines<'_>,
    steps: &mut Vec<Step<'e>>,
) -> End {
    for event in events {
        let line = match lines.next() {
            Some(line) => line.number,
            None => 0,
        };
        let (a, b) = states(pair);
        if steps.reserve(1).is_err() {
            return End::Memory;
        }
        let Ok(outcome) = pair.step(event) else {
            return End::Memory;
        };
        steps.push_reserved(noted_step(line, event, outcome, (a, b), states(pair)));
    }
    End::Done
}

fn noted_step<'e>(
    line: usize,
    event: &'e Event,
    outcome: Outcome,
    before: (State, State),
    after: (State, State),
) -> Step<'e> {
    let (a, b) = after;
    let moved = before.0 != a || before.1 != b;
    Step { line, event, outcome, a, b, moved }
}

fn states(pair: &Pair<'_, NoTimestamps>) -> (State, State) {
    (pair.socket(Side::A).state(), pair.socket(Side::B).state())
}
