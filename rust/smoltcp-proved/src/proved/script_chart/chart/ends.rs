// Made from crates/script_chart/src/chart/ends.rt by rust/translate: change it there.
//! What a chart draws last: the segments that never came, the names that stand again, and the labels.
use super::Chart;
use crate::kit::io::Write;
use crate::proved::script_chart::arrow::{Arrow, Ending};
use crate::proved::script_chart::label::{Label, Name};
use crate::proved::script_chart::page::{Row, SCREEN, lifeline, name};
use crate::proved::sock_pair::Side;

impl<W: Write> Chart<'_, '_, W> {
    // Draws the segments that never came.
    pub(super) fn lost(&mut self) {
        for index in 0..self.segments.len() {
            self.lost_at(index);
        }
    }

    fn lost_at(&mut self, index: usize) {
        if let (Some(departure), Some(segment)) = (self.departures.get(index), self.segments.get(index)) {
            if !departure.arrived {
                let arrow = Arrow {
                    from: segment.from,
                    departure: departure.row.departure(),
                    ending: Ending::Lost,
                    reply: departure.reply,
                    again: false,
                };
                arrow.put(&mut self.out);
            }
        }
    }

    // The names of the sides, after each screen.
    pub(super) fn names(&mut self) {
        let mut row = Row::FIRST;
        for index in 1..self.rows {
            row = row.next();
            if index % SCREEN == 0 {
                let y = row.label();
                self.name(Side::A, y);
                self.name(Side::B, y);
                row = row.next();
            }
        }
    }

    fn name(&mut self, side: Side, y: usize) {
        let name = Name { name: name(side), x: lifeline(side), y };
        name.put(&mut self.out);
    }

    pub(super) fn labels(&mut self) {
        for index in 0..self.segments.len() {
            self.label(index);
        }
    }

    fn label(&mut self, index: usize) {
        if let (Some(departure), Some(segment)) = (self.departures.get(index), self.segments.get(index)) {
            let label = Label { index, segment, numbers: self.numbers, y: departure.row.label() };
            label.put(&mut self.out);
        }
    }
}
