// Made from crates/script_chart/src/chart.rt by rust/translate: change it there.
//! The chart, which is drawn row by row.
//!
//! Arrows and what stands beside the lifelines are drawn as the events come. The labels of the segments, and the names
//! that stand again further down, come last, so that no arrow strikes through one; all that is kept for them is where
//! each segment departed.

use crate::kit::{Vec, vec};

mod ends;

use crate::kit::alloc::Global;
use crate::kit::io::Write;
use crate::proved::script_chart::arrow::{Arrow, Ending};
use crate::proved::script_chart::call::Call;
use crate::proved::script_chart::drawing::{Drawing, Part};
use crate::proved::script_chart::history::Step;
use crate::proved::script_chart::marks::{Mark, Marker};
use crate::proved::script_chart::numbers::Numbers;
use crate::proved::script_chart::page::{
    Anchor, HEAD, LINE, NEITHER, ROW, Row, SCREEN, TIME, WIDTH, height, lifeline, name,
};
use crate::proved::script_chart::style::{LEGEND, STYLE};
use crate::proved::sock_pair::script::End;
use crate::proved::sock_pair::{Event, Outcome, Segment, Side};
use crate::proved::sock_tcp::State;

/// A chart on its way to a writer.
struct Chart<'w, 's, W> {
    out: Drawing<'w, W>,
    // The segments, and how their numbers are shown.
    segments: &'s [Segment],
    numbers: Numbers,
    // The next row, the base line of the next text beside a lifeline in it, and how many rows of events came before.
    row: Row,
    line: usize,
    rows: usize,
    // The states of the sides, as they were written last.
    a: State,
    b: State,
    // How each segment set out, and what the next one repeats.
    departures: Vec<Departure>,
    marker: Marker,
    // The moment of the last step that had one.
    millis: Option<u64>,
}

// How a segment set out.
#[derive(Clone, Copy)]
struct Departure {
    row: Row,
    reply: bool,
    // Whether it came to the other side since.
    arrived: bool,
}

// So many milliseconds between two rows are a break.
const GAP: u64 = 500;

const NOT_YET: Departure = Departure { row: Row::FIRST, reply: false, arrived: false };

/// Draws all steps, with these segments, whose numbers are shown so. Where there is no memory to begin, nothing is
/// written.
pub fn draw<W: Write>(
    alloc: Global,
    out: &mut W,
    steps: &[Step<'_>],
    segments: &[Segment],
    numbers: Numbers,
) -> End {
    let Ok(departures) = vec![in alloc; NOT_YET; segments.len()] else {
        return End::Memory;
    };
    let mut chart = Chart {
        out: Drawing::new(out),
        segments,
        numbers,
        row: Row::FIRST,
        line: Row::FIRST.first_line(),
        rows: 0,
        a: State::Closed,
        b: State::Closed,
        departures,
        marker: Marker::new(),
        millis: None,
    };
    chart.draw(steps);
    if chart.out.is_whole() { End::Done } else { End::Write }
}

// How many rows steps have.
fn count_rows(steps: &[Step<'_>]) -> usize {
    let mut rows = 0usize;
    let mut before = None;
    for step in steps {
        if !repeats(step, before) {
            rows = rows.saturating_add(1);
        }
        before = Some(step);
    }
    rows
}

// Whether a step says the same as the one before it.
fn repeats(step: &Step<'_>, before: Option<&Step<'_>>) -> bool {
    match before {
        Some(before) => step.repeats(before),
        None => false,
    }
}

impl<W: Write> Chart<'_, '_, W> {
    // What stands above and behind the rows comes first, and what stands over the arrows last.
    fn draw(&mut self, steps: &[Step<'_>]) {
        self.begin(height(count_rows(steps)));
        self.steps(steps);
        self.lost();
        self.names();
        self.labels();
        self.out.text("</svg>\n");
    }

    fn begin(&mut self, height: usize) {
        self.open(height);
        self.ground();
        self.head(Side::A, height);
        self.head(Side::B, height);
    }

    // The root element, and the style sheet.
    fn open(&mut self, height: usize) {
        let (width, height) = (Part::Place(WIDTH), Part::Place(height));
        self.out.put(
            "<svg xmlns=\"http://www.w3.org/2000/svg\" width=\"%\" height=\"%\" viewBox=\"0 0 % %\">\n",
            &[width, height, width, height],
        );
        self.out.text(STYLE);
    }

    // The page, with a thin line above each row, and the legend.
    fn ground(&mut self) {
        let (head, width, row) = (Part::Place(HEAD), Part::Place(WIDTH), Part::Place(ROW));
        self.out.put(
            "<pattern id=\"rows\" patternUnits=\"userSpaceOnUse\" y=\"%\" width=\"%\" height=\"%\">\
            <path class=\"row\" d=\"M0 0H%\"/></pattern>\n",
            &[head, width, row, width],
        );
        self.out.text("<rect class=\"page\" width=\"100%\" height=\"100%\"/>\n");
        self.out.put("<rect fill=\"url(#rows)\" y=\"%\"", &[head]);
        self.out.text(" width=\"100%\" height=\"100%\"/>\n");
        self.column(LINE, "line");
        self.column(TIME, "ms");
        self.out.text(LEGEND);
    }

    // The name of a column at the left.
    fn column(&mut self, x: usize, name: &str) {
        self.number(x, 94, Part::Text(name));
    }

    // The lifeline of a side, and above it the side's name and first state.
    fn head(&mut self, side: Side, height: usize) {
        let x = Part::Place(lifeline(side));
        self.out.put(
            "<text class=\"name\" x=\"%\" y=\"72\">%</text>\n\
            <path class=\"lifeline\" d=\"M% 82V%\"/>\n\
            <text class=\"state\" % y=\"94\">CLOSED</text>\n",
            &[x, Part::Text(name(side)), x, Part::Place(height), Part::At(Anchor::outside(side))],
        );
    }

    // Draws each step, and those that say the same in one row.
    fn steps(&mut self, steps: &[Step<'_>]) {
        let mut count = 0usize;
        for (index, step) in steps.iter().enumerate() {
            if count == 0 {
                self.step(step);
            }
            count = count.saturating_add(1);
            if is_repeated(step, steps.get(index.saturating_add(1))) {
                continue;
            }
            if count > 1 {
                self.repeated(step, count);
            }
            count = 0;
            self.next_row();
        }
    }

    // The row of the next step. Between two screens is one for the names.
    fn next_row(&mut self) {
        self.rows = self.rows.saturating_add(1);
        self.row = self.row.next();
        if self.rows % SCREEN == 0 {
            self.row = self.row.next();
        }
        self.line = self.row.first_line();
    }

    // How many steps this row stands for, with the line and the moment of the last.
    fn repeated(&mut self, last: &Step<'_>, count: usize) {
        let y = self.row.second_line();
        self.time(y, last);
        if let Event::Dispatch { side, .. } = last.event {
            self.beside(*side, "quiet", "% times", &[Part::Place(count)]);
        }
    }

    // Where time went on by much more than a row tells: a break in both lifelines, with its length.
    fn gap(&mut self, millis: u64) {
        let gap = millis.saturating_sub(self.millis.unwrap_or(millis));
        if gap < GAP {
            return;
        }
        let y = self.row.edge();
        self.interrupt(lifeline(Side::A), y);
        self.interrupt(lifeline(Side::B), y);
        self.out.put(
            "<text class=\"time\" x=\"%\" y=\"%\">+% ms</text>\n",
            &[Part::Place(NEITHER), Part::Place(y.saturating_add(4)), Part::Number(gap)],
        );
    }

    // A break in a lifeline at this height.
    fn interrupt(&mut self, x: usize, y: usize) {
        let left = Part::Place(x.saturating_sub(6));
        let right = Part::Place(x.saturating_add(6));
        let (low, high) = (y.saturating_add(5), y.saturating_sub(1));
        self.out.put(
            "<path class=\"gap\" d=\"M% % % %M% % % %\"/>\n",
            &[
                left,
                Part::Place(y),
                right,
                Part::Place(high),
                left,
                Part::Place(low),
                right,
                Part::Place(y.saturating_add(4)),
            ],
        );
    }

    // Draws a step, and the state of each side where it is another one now.
    fn step(&mut self, step: &Step<'_>) {
        if let Some(millis) = step.millis() {
            self.gap(millis);
        }
        self.time(self.time_line(step), step);
        self.call(step);
        self.state(Side::A, step.a);
        self.state(Side::B, step.b);
        self.mark_emitted(step.reply());
    }

    // The number of a step's line and its moment.
    fn time(&mut self, y: usize, step: &Step<'_>) {
        self.number(LINE, y, Part::Place(step.line));
        if let Some(millis) = step.millis() {
            self.millis = Some(millis);
            self.number(TIME, y, Part::Number(millis));
        }
    }

    // Where the line's number and the time of a step stand: beside the label of what it emitted.
    fn time_line(&self, step: &Step<'_>) -> usize {
        match step.outcome {
            Outcome::Emitted(_) | Outcome::EmitFailed => self.row.label(),
            _ => self.row.first_line(),
        }
    }

    // The event's own row: a segment's way, or a text beside a lifeline.
    fn call(&mut self, step: &Step<'_>) {
        let call = Call { event: step.event, outcome: &step.outcome };
        match step.event {
            Event::Dispatch { side, .. } => self.dispatch(*side, call),
            Event::Deliver { index, .. } => self.deliver(*index, call),
            Event::Listen { side }
            | Event::Connect { side, .. }
            | Event::SendSlice { side, .. }
            | Event::Send { side, .. }
            | Event::RecvSlice { side, .. }
            | Event::Recv { side, .. }
            | Event::Close { side }
            | Event::Abort { side }
            | Event::Set { side, .. } => self.call_beside(*side, "call", call),
        }
    }

    fn call_beside(&mut self, side: Side, class: &str, call: Call<'_>) {
        self.beside(side, class, Call::FORM, &call.parts());
    }

    fn dispatch(&mut self, side: Side, call: Call<'_>) {
        match call.outcome {
            Outcome::Emitted(index) => {
                self.depart(*index, false);
                self.mark_emitted(Some(*index));
            }
            Outcome::EmitFailed => {
                self.fail(side);
                self.call_beside(side, "failed-text", call);
            }
            _ => self.call_beside(side, "quiet", call),
        }
    }

    // The segment of this index departs in this row.
    fn depart(&mut self, index: usize, reply: bool) {
        let row = self.row;
        if let Some(departure) = self.departures.get_mut(index) {
            *departure = Departure { row, reply, arrived: false };
        }
    }

    // Says beside its emitter's lifeline what the segment of this index, if there is one, repeats.
    fn mark_emitted(&mut self, index: Option<usize>) {
        let segments = self.segments;
        let Some(index) = index else {
            return;
        };
        if let Some(segment) = segments.get(index) {
            self.mark(segment);
        }
    }

    fn mark(&mut self, segment: &Segment) {
        match self.marker.mark(segment) {
            Mark::New => {}
            mark => self.beside(segment.from, "mark", "%%", &mark.parts()),
        }
    }

    // An emit failed.
    fn fail(&mut self, from: Side) {
        let arrow = Arrow {
            from,
            departure: self.row.departure(),
            ending: Ending::Failed,
            reply: false,
            again: false,
        };
        arrow.put(&mut self.out);
    }

    fn deliver(&mut self, index: usize, call: Call<'_>) {
        match call.outcome {
            Outcome::Delivered(reply) => {
                self.reply(*reply);
                self.arrive(index, None);
            }
            Outcome::NotAccepted(reply) => {
                self.reply(*reply);
                self.arrive(index, Some("not accepted"));
            }
            Outcome::TooOld => self.arrive(index, Some("too old")),
            _ => self.stray(call),
        }
    }

    // What was to be delivered is not there.
    fn stray(&mut self, call: Call<'_>) {
        let y = self.row.first_line();
        self.out.put("<text class=\"quiet\" x=\"%\" y=\"%\">", &[Part::Place(NEITHER), Part::Place(y)]);
        self.out.put(Call::FORM, &call.parts());
        self.out.text("</text>\n");
    }

    // A reply departs in this row, if there is one.
    fn reply(&mut self, reply: Option<usize>) {
        if let Some(index) = reply {
            self.depart(index, true);
        }
    }

    // The segment of this index comes to the other side in this row, which may refuse it.
    fn arrive(&mut self, index: usize, refusal: Option<&str>) {
        let segments = self.segments;
        let Some(segment) = segments.get(index) else {
            return;
        };
        let Some(arrow) = self.arrow_of(index, segment.from, refusal.is_some()) else {
            return;
        };
        arrow.put(&mut self.out);
        match refusal {
            None => self.marker.hear(segment),
            Some(why) => {
                self.beside(segment.from.other(), "refused-text", "%", &[Part::Text(why)]);
            }
        }
    }

    // Its arrow, and that it came.
    fn arrow_of(&mut self, index: usize, from: Side, is_refused: bool) -> Option<Arrow> {
        let arrival = self.row.arrival();
        let Some(departure) = self.departures.get_mut(index) else {
            return None;
        };
        let again = departure.arrived;
        departure.arrived = true;
        Some(Arrow {
            from,
            departure: departure.row.departure(),
            ending: if is_refused { Ending::Refused(arrival) } else { Ending::Delivered(arrival) },
            reply: departure.reply,
            again,
        })
    }

    // Writes the state of a side where it is another one now.
    fn state(&mut self, side: Side, state: State) {
        let last = match side {
            Side::A => &mut self.a,
            Side::B => &mut self.b,
        };
        if state == *last {
            return;
        }
        *last = state;
        self.beside(side, "state", "%", &[Part::Text(state.name())]);
    }

    // Writes a text beside the lifeline of a side, in the next line of this row.
    fn beside(&mut self, side: Side, class: &str, form: &str, parts: &[Part<'_>]) {
        let y = self.line;
        self.line = self.row.second_line();
        self.out.put(
            "<text class=\"%\" % y=\"%\">",
            &[Part::Text(class), Part::At(Anchor::outside(side)), Part::Place(y)],
        );
        self.out.put(form, parts);
        self.out.text("</text>\n");
    }

    // Writes a number of the columns at the left, which ends at `x`.
    fn number(&mut self, x: usize, y: usize, number: Part<'_>) {
        self.out.put(
            "<text class=\"time\" x=\"%\" text-anchor=\"end\" y=\"%\">%</text>\n",
            &[Part::Place(x), Part::Place(y), number],
        );
    }
}

// Whether the next step says the same as this one.
fn is_repeated(step: &Step<'_>, next: Option<&Step<'_>>) -> bool {
    match next {
        Some(next) => next.repeats(step),
        None => false,
    }
}
