// Made from crates/script_chart/src/arrow.rt by rust/translate: change it there.
//! Arrows, one for each way of a segment.

use crate::kit::io::Write;
use crate::proved::script_chart::drawing::{Drawing, Part};
use crate::proved::script_chart::page::lifeline;
use crate::proved::sock_pair::Side;

/// How a segment's way ended.
#[derive(Clone, Copy)]
pub enum Ending {
    /// The other side took it, at this height of the page.
    Delivered(usize),
    /// It came to the other side, at this height, and was refused.
    Refused(usize),
    /// It never came.
    Lost,
    /// Its emit failed.
    Failed,
}

/// The way of a segment.
#[derive(Clone, Copy)]
pub struct Arrow {
    /// The side that emits it.
    pub from: Side,
    /// The height of the page at which it departs.
    pub departure: usize,
    /// How its way ends.
    pub ending: Ending,
    /// Whether it answers a segment that was delivered in the same row.
    pub reply: bool,
    /// Whether it had come before.
    pub again: bool,
}

impl Arrow {
    /// Draws it.
    pub fn put<W: Write>(&self, out: &mut Drawing<'_, W>) {
        let (tip_x, tip_y) = self.tip();
        out.put(
            "<path class=\"%%\" d=\"M% % % %\"/>\n",
            &[
                Part::Text(self.class()),
                Part::Text(self.further_classes()),
                Part::Place(lifeline(self.from)),
                Part::Place(self.departure),
                Part::Place(tip_x),
                Part::Place(tip_y),
            ],
        );
    }

    // Where the arrow ends. One that is refused stops before the lifeline.
    fn tip(&self) -> (usize, usize) {
        let line = lifeline(self.from);
        let other = lifeline(self.from.other());
        match self.ending {
            Ending::Delivered(arrival) => (other, arrival),
            Ending::Refused(arrival) => (toward(other, line, 14), arrival),
            Ending::Lost => (toward(line, other, 120), self.departure.saturating_add(4)),
            Ending::Failed => (toward(line, other, 34), self.departure),
        }
    }

    fn class(&self) -> &'static str {
        match self.ending {
            Ending::Delivered(_) => "sent",
            Ending::Refused(_) => "refused",
            Ending::Lost => "lost",
            Ending::Failed => "failed",
        }
    }

    // What stands behind the class.
    fn further_classes(&self) -> &'static str {
        match (self.reply, self.again) {
            (false, false) => "",
            (true, false) => " reply",
            (false, true) => " again",
            (true, true) => " reply again",
        }
    }
}

// The place that is so far from one place towards another.
fn toward(from: usize, to: usize, distance: usize) -> usize {
    if from < to { from.saturating_add(distance) } else { from.saturating_sub(distance) }
}
