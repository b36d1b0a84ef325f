// Made from crates/script_chart/src/moments.rt by rust/translate: change it there.
//! The moments of a script along a line of the page.

use crate::proved::script_chart::axis::Axis;
use crate::proved::script_chart::history::Step;

// How much of the line a break and what stands behind it take, and how far that stands from the line's end.
const FOLDED: u64 = 150;

const MARGIN: u64 = 40;

/// The moments from left to right. One that comes long after all others, as a segment behind TIME-WAIT, stands behind a
/// break.
#[derive(Clone, Copy)]
pub struct Time {
    /// Those before a break, or all.
    pub axis: Axis,
    /// The one behind a break.
    pub late: Option<u64>,
    right: u64,
}

impl Time {
    /// Those at which a segment was emitted or came, from this place of the page to that. What lies behind them, as the
    /// end of TIME-WAIT, is not drawn.
    pub fn of(steps: &[Step<'_>], left: u64, right: u64) -> Time {
        let (mut first, mut before, mut last) = (u64::MAX, 0, 0);
        for step in steps {
            if let Some(millis) = step.millis()
                && (step.emitted().is_some() || step.delivered().is_some())
            {
                first = first.min(millis);
                if millis > last {
                    before = last;
                    last = millis;
                } else if millis < last {
                    before = before.max(millis);
                }
            }
        }
        let first = first.min(last);
        if first < before && last.saturating_sub(before) > before.saturating_sub(first) {
            return Time {
                axis: axis(first, before, left, right.saturating_sub(FOLDED)),
                late: Some(last),
                right,
            };
        }
        Time { axis: axis(first, last, left, right), late: None, right }
    }

    /// Where a moment stands.
    pub fn place(self, millis: u64) -> u64 {
        match self.late {
            Some(late) if millis >= late => self.right.saturating_sub(MARGIN),
            _ => self.axis.place(millis),
        }
    }

    /// Where the break stands.
    pub fn fold(self) -> u64 {
        self.right.saturating_sub((FOLDED + MARGIN) / 2)
    }

    /// The last of them.
    pub fn last(self) -> u64 {
        self.late.unwrap_or(self.axis.last)
    }
}

fn axis(first: u64, last: u64, from: u64, to: u64) -> Axis {
    Axis { first, last, from, to }
}

/// The last moment of the script.
pub fn last_moment(steps: &[Step<'_>]) -> u64 {
    let mut last = 0;
    for step in steps {
        last = last.max(step.millis().unwrap_or(0));
    }
    last
}
