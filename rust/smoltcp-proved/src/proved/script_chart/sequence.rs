// Made from crates/script_chart/src/sequence.rt by rust/translate: change it there.
//! The sequence numbers of one side over time: what it sent, and what it then heard of it.
//!
//! The moments are those of the side that is drawn: a segment stands where it was emitted, an acknowledgement and the
//! window where they arrived.

use crate::kit::alloc::{AllocError, Global};
use crate::kit::io::Write;
use crate::kit::{Vec, vec};
use crate::proved::control_wire::TcpControl;
use crate::proved::script_chart::axis::Axis;
use crate::proved::script_chart::drawing::{Drawing, Part};
use crate::proved::script_chart::heard::{Heard, is_reset};
use crate::proved::script_chart::history::Step;
use crate::proved::script_chart::marks::{Mark, Marker, length};
use crate::proved::script_chart::moments::{Time, last_moment};
use crate::proved::script_chart::page::name;
use crate::proved::script_chart::style::{SEQUENCE_LEGEND, SEQUENCE_STYLE};
use crate::proved::sock_pair::script::End;
use crate::proved::sock_pair::{Segment, Side};

// The page, and the frame on it.
const WIDTH: u64 = 1180;

const HEIGHT: u64 = 640;

const LEFT: u64 = 90;

const RIGHT: u64 = 1150;

const TOP: u64 = 84;

const BOTTOM: u64 = 590;

// The number 0, a SYN, stands above the frame.
const LOWEST: u64 = 578;

// A picture on its way to a writer.
struct Picture<'w, 'h, W> {
    out: Drawing<'w, W>,
    heard: Heard<'h>,
    // Which segments arrived at all.
    arrived: Vec<bool>,
    // Milliseconds from left to right, and numbers from the bottom upwards.
    time: Time,
    number: Axis,
}

/// Draws the numbers of this side, counted from its SYN. Where there is no memory to begin, nothing is written.
pub fn draw<W: Write>(
    alloc: Global,
    out: &mut W,
    steps: &[Step<'_>],
    segments: &[Segment],
    side: Side,
) -> End {
    let Ok(arrived) = arrivals(alloc, steps, segments.len()) else {
        return End::Memory;
    };
    let heard = Heard::of(segments, side);
    let mut picture = Picture {
        out: Drawing::new(out),
        heard,
        arrived,
        time: Time::of(steps, LEFT, RIGHT),
        number: number_axis(&heard, steps),
    };
    picture.draw(steps);
    if picture.out.is_whole() { End::Done } else { End::Write }
}

// For each segment, of which there are so many, whether it was delivered.
fn arrivals(alloc: Global, steps: &[Step<'_>], count: usize) -> Result<Vec<bool>, AllocError> {
    let mut arrived = vec![in alloc; false; count]?;
    for step in steps {
        if let Some(index) = step.delivered()
            && let Some(place) = arrived.get_mut(index)
        {
            *place = true;
        }
    }
    Ok(arrived)
}

// All numbers that were sent, and those that the window let out, up to twice as many.
fn number_axis(heard: &Heard<'_>, steps: &[Step<'_>]) -> Axis {
    let sent = heard.highest_sent();
    let edge = heard.highest_edge(steps).min(sent.saturating_mul(2));
    Axis { first: 0, last: sent.max(edge), from: LOWEST, to: TOP }
}

impl<W: Write> Picture<'_, '_, W> {
    // The frame, with the marks beside it, and then what happened.
    fn draw(&mut self, steps: &[Step<'_>]) {
        self.open();
        self.times(last_moment(steps));
        self.numbers();
        self.frame();
        self.line(steps, "acked", false);
        self.line(steps, "window", true);
        self.bars(steps);
        self.answers(steps);
        self.resets(steps);
        self.out.text("</svg>\n");
    }

    // The root element, the style sheet, the page, the legend, and what is drawn.
    fn open(&mut self) {
        let (width, height) = (Part::Number(WIDTH), Part::Number(HEIGHT));
        self.out.put(
            "<svg xmlns=\"http://www.w3.org/2000/svg\" width=\"%\" height=\"%\" viewBox=\"0 0 % %\">\n",
            &[width, height, width, height],
        );
        self.out.text(SEQUENCE_STYLE);
        self.out.text("<rect class=\"page\" width=\"100%\" height=\"100%\"/>\n");
        self.out.put(
            "<text x=\"%\" y=\"62\"><tspan class=\"name\">%</tspan>: sequence numbers from its SYN on</text>\n",
            &[Part::Number(LEFT), Part::Text(name(self.heard.side))],
        );
        self.out.text(SEQUENCE_LEGEND);
    }

    // The marks of the milliseconds. The script ends at `end`.
    fn times(&mut self, end: u64) {
        let y = BOTTOM + 18;
        for index in 0..16u64 {
            if let Some(mark) = self.time.axis.mark(index) {
                self.moment(mark, y);
            }
        }
        if let Some(late) = self.time.late {
            self.moment(late, y);
            self.fold();
        }
        self.end_of_times(end);
    }

    // What these marks are of, and how long nothing happens behind them.
    fn end_of_times(&mut self, end: u64) {
        self.out.put(
            "<text class=\"mark\" x=\"%\" text-anchor=\"end\" y=\"%\">ms",
            &[Part::Number(RIGHT), Part::Number(BOTTOM + 36)],
        );
        if end > self.time.last() {
            self.out.put("; no segment from here to %", &[Part::Number(end)]);
        }
        self.out.text("</text>\n");
    }

    // The mark of this moment, below the frame.
    fn moment(&mut self, millis: u64, y: u64) {
        let x = Part::Number(self.time.place(millis));
        self.out.put(
            "<path class=\"grid\" d=\"M% %V%\"/>\
            <text class=\"mark\" x=\"%\" text-anchor=\"middle\" y=\"%\">%</text>\n",
            &[x, Part::Number(TOP), Part::Number(BOTTOM), x, Part::Number(y), Part::Number(millis)],
        );
    }

    // The break before the last moment.
    fn fold(&mut self) {
        self.out.put(
            "<path class=\"frame\" d=\"M% %l6 -12m4 12l6 -12\"/>\n",
            &[Part::Number(self.time.fold()), Part::Number(BOTTOM + 6)],
        );
    }

    // The marks of the numbers.
    fn numbers(&mut self) {
        let end = LEFT - 8;
        self.out.put(
            "<text class=\"mark\" x=\"%\" text-anchor=\"end\" y=\"%\">number</text>\n",
            &[Part::Number(end), Part::Number(TOP - 8)],
        );
        for index in 0..16u64 {
            if let Some(mark) = self.number.mark(index) {
                self.number_mark(mark, end);
            }
        }
    }

    // The mark of this number, whose text ends at `end`.
    fn number_mark(&mut self, mark: u64, end: u64) {
        let y = self.number.place(mark);
        self.out.put(
            "<path class=\"grid\" d=\"M% %H%\"/>\
            <text class=\"mark\" x=\"%\" text-anchor=\"end\" y=\"%\">%</text>\n",
            &[
                Part::Number(LEFT),
                Part::Number(y),
                Part::Number(RIGHT),
                Part::Number(end),
                Part::Number(y.saturating_add(4)),
                Part::Number(mark),
            ],
        );
    }

    fn frame(&mut self) {
        self.out.put(
            "<path class=\"frame\" d=\"M% %V%H%\"/>\n",
            &[Part::Number(LEFT), Part::Number(TOP), Part::Number(BOTTOM), Part::Number(RIGHT)],
        );
    }

    // A line of what was acknowledged, or of the window's edge, from one arrival to the next.
    fn line(&mut self, steps: &[Step<'_>], class: &str, is_edge: bool) {
        let heard = self.heard;
        let mut acked = None;
        for step in steps {
            if let Some((millis, segment, ack)) = heard.arrival(step) {
                let high = ack.max(acked.unwrap_or(0));
                let ahead = if is_edge { heard.window(segment) } else { 0 };
                let y = self.number.place(high.saturating_add(ahead));
                self.corner(acked.is_none(), class, self.time.place(millis), y);
                acked = Some(high);
            }
        }
        if acked.is_some() {
            self.out.put("H%\"/>\n", &[Part::Number(RIGHT)]);
        }
    }

    // The next corner of a line.
    fn corner(&mut self, is_first: bool, class: &str, x: u64, y: u64) {
        if is_first {
            self.out
                .put("<path class=\"%\" d=\"M% %", &[Part::Text(class), Part::Number(x), Part::Number(y)]);
        } else {
            self.out.put("H%V%", &[Part::Number(x), Part::Number(y)]);
        }
    }

    // What the arrivals say beside that: acknowledgements of nothing new, and ranges that came out of order.
    fn answers(&mut self, steps: &[Step<'_>]) {
        let heard = self.heard;
        let mut acked = 0;
        for step in steps {
            if let Some((millis, segment, ack)) = heard.arrival(step) {
                let x = self.time.place(millis);
                if ack <= acked && length(segment) == 0 {
                    self.same_again(x, self.number.place(acked));
                }
                acked = acked.max(ack);
                self.ranges(x, segment);
            }
        }
    }

    fn same_again(&mut self, x: u64, y: u64) {
        self.out.put("<path class=\"acked\" d=\"M% %v-8\"/>\n", &[Part::Number(x), Part::Number(y)]);
    }

    fn ranges(&mut self, x: u64, segment: &Segment) {
        let [first, second, third] = segment.header.repr.sack_ranges;
        self.range(x, first);
        self.range(x, second);
        self.range(x, third);
    }

    fn range(&mut self, x: u64, range: Option<(u32, u32)>) {
        let Some((left, right)) = range else {
            return;
        };
        let heard = self.heard;
        let from = self.number.place(heard.offset(left));
        let to = self.number.place(heard.offset(right));
        self.out.put(
            "<path class=\"sack\" d=\"M% %V%\"/>\n",
            &[Part::Number(x), Part::Number(from), Part::Number(to)],
        );
    }

    // The RSTs of both sides, each by a line over all numbers: it ends the connection where it is heard.
    fn resets(&mut self, steps: &[Step<'_>]) {
        for step in steps {
            if let Some(millis) = step.millis() {
                self.reset_of(millis, step);
            }
        }
    }

    fn reset_of(&mut self, millis: u64, step: &Step<'_>) {
        let heard = self.heard;
        if is_reset(heard.segments, step.emitted(), heard.side) {
            self.reset(millis, "RST sent", TOP + 12);
        }
        if is_reset(heard.segments, step.delivered(), heard.side.other()) {
            self.reset(millis, "RST came", TOP + 28);
        }
    }

    fn reset(&mut self, millis: u64, text: &str, y: u64) {
        let x = self.time.place(millis);
        self.out.put(
            "<path class=\"reset\" d=\"M% %V%\"/><text class=\"mark\" x=\"%\" text-anchor=\"end\" y=\"%\">%</text>\n",
            &[
                Part::Number(x),
                Part::Number(TOP),
                Part::Number(BOTTOM),
                Part::Number(x.saturating_sub(6)),
                Part::Number(y),
                Part::Text(text),
            ],
        );
    }

    // The segments of this side that take numbers.
    fn bars(&mut self, steps: &[Step<'_>]) {
        let heard = self.heard;
        let mut marker = Marker::new();
        for step in steps {
            if let (Some(millis), Some(index)) = (step.millis(), step.emitted())
                && let Some(segment) = heard.segments.get(index)
            {
                let mark = marker.mark(segment);
                if segment.from == heard.side && length(segment) > 0 {
                    let arrived = self.arrived.get(index) == Some(&true);
                    self.bar(self.time.place(millis), segment, mark, arrived);
                }
            }
        }
    }

    // A segment: its numbers that were sent before, and the others.
    fn bar(&mut self, x: u64, segment: &Segment, mark: Mark, arrived: bool) {
        let heard = self.heard;
        let from = heard.offset(segment.header.repr.seq_number.0);
        let to = from.saturating_add(u64::from(length(segment)));
        let again = match mark {
            Mark::Retransmission(count) | Mark::Probe(count) => u64::from(count),
            Mark::KeepAlive => u64::from(length(segment)),
            _ => 0,
        };
        let middle = from.saturating_add(again);
        self.range_sent("again", x, from, middle);
        self.range_sent("sent", x, middle, to);
        if !arrived {
            self.cross(x, from.saturating_add(to) / 2);
        }
        self.flag(x, to, segment);
    }

    fn range_sent(&mut self, class: &str, x: u64, from: u64, to: u64) {
        if to <= from {
            return;
        }
        let from = Part::Number(self.number.place(from));
        let to = Part::Number(self.number.place(to));
        let left = Part::Number(x.saturating_sub(3));
        self.out.put(
            "<path class=\"%\" d=\"M% %h6M% %V%M% %h6\"/>\n",
            &[Part::Text(class), left, from, Part::Number(x), from, to, left, to],
        );
    }

    // The segment that has this number in its middle never came.
    fn cross(&mut self, x: u64, middle: u64) {
        let y = self.number.place(middle);
        self.out.put(
            "<path class=\"lost\" d=\"M% %l8 8m0 -8l-8 8\"/>\n",
            &[Part::Number(x.saturating_sub(4)), Part::Number(y.saturating_sub(4))],
        );
    }

    // The name of a SYN or FIN, above its last number.
    fn flag(&mut self, x: u64, last: u64, segment: &Segment) {
        let name = match segment.header.repr.control {
            TcpControl::Syn => "SYN",
            TcpControl::Fin => "FIN",
            _ => return,
        };
        let y = self.number.place(last).saturating_sub(4);
        self.out.put(
            "<text class=\"mark\" x=\"%\" y=\"%\">%</text>\n",
            &[Part::Number(x.saturating_add(6)), Part::Number(y), Part::Text(name)],
        );
    }
}
