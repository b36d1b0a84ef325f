// Made from crates/socket_script/src/chart.rt by rust/translate: change it there.
//! The chart of a drill: a row for each event, with what was asked and what came of it. At the left stands the lifeline
//! of the sockets, at the right the wire.

use crate::kit::io::Write;
use crate::proved::script_chart::drawing::{Drawing, Part};
use crate::proved::script_chart::page::{Anchor, BETWEEN, HEAD, LINE, ROW, Row, TIME, WIDTH, lifeline};
use crate::proved::script_chart::style::STYLE;
use crate::proved::sock_pair::Side;
use crate::proved::socket_script::tally::Unwritten;

// The sockets stand where side a stands in a chart of two sockets, and the wire where side b does.
const SOCKETS: Side = Side::A;

const WIRE: Side = Side::B;

// The room for a text at the left of the lifeline.
const BESIDE: usize = 250;

// The height under the last row.
const FOOT: usize = 20;

/// An event that is drawn.
#[derive(Clone, Copy)]
pub struct Drawn<'d> {
    /// The number of its line.
    pub line: usize,
    /// Its moment.
    pub millis: u32,
    /// The first word of its line, and what stands behind it.
    pub name: &'d [u8],
    pub values: &'d [u8],
    /// What is printed of it.
    pub answer: &'d [u8],
    /// Whether a packet came.
    pub came: bool,
    /// The state of the socket behind the event, where it is another than before.
    pub state: Option<&'static str>,
}

/// A chart on its way to a writer.
#[derive(Clone, Copy)]
pub struct Chart {
    row: Row,
}

// Where a text stands, how it looks, and how much room it has.
#[derive(Clone, Copy)]
struct Place<'p> {
    class: &'p str,
    anchor: Anchor,
    y: usize,
    room: usize,
}

impl Chart {
    /// Before the first row.
    pub fn new() -> Chart {
        Chart { row: Row::FIRST }
    }

    /// Begins the page of so many rows.
    pub fn open<W: Write>(&self, rows: usize, writer: &mut W) -> Result<(), Unwritten> {
        let height = rows.saturating_mul(ROW).saturating_add(HEAD + FOOT);
        let mut out = Drawing::new(writer);
        put_page(height, &mut out);
        put_lifeline(SOCKETS, "sockets", height, &mut out);
        put_lifeline(WIRE, "the wire", height, &mut out);
        written(out.is_whole())
    }

    /// Ends the page.
    pub fn close<W: Write>(&self, writer: &mut W) -> Result<(), Unwritten> {
        let mut out = Drawing::new(writer);
        out.text("</svg>\n");
        written(out.is_whole())
    }

    /// The row in which an example of this name begins.
    pub fn begin<W: Write>(&mut self, name: &[u8], writer: &mut W) -> Result<(), Unwritten> {
        let place = Place {
            class: "label name",
            anchor: Anchor::Start(lifeline(SOCKETS)),
            y: self.row.label(),
            room: BETWEEN,
        };
        self.row = self.row.next();
        let mut out = Drawing::new(writer);
        put_text(place, b"", name, &mut out);
        written(out.is_whole())
    }

    /// The row of an event.
    pub fn draw<W: Write>(&mut self, drawn: &Drawn<'_>, writer: &mut W) -> Result<(), Unwritten> {
        let row = self.row;
        self.row = row.next();
        let mut out = Drawing::new(writer);
        put_row(row, drawn, &mut out);
        written(out.is_whole())
    }
}

// The root element, the style sheet, and what stands above the columns.
fn put_page<W: Write>(height: usize, out: &mut Drawing<'_, W>) {
    let (width, height) = (Part::Place(WIDTH), Part::Place(height));
    out.put(
        "<svg xmlns=\"http://www.w3.org/2000/svg\" width=\"%\" height=\"%\" viewBox=\"0 0 % %\">\n",
        &[width, height, width, height],
    );
    out.text(STYLE);
    out.text("<rect class=\"page\" width=\"100%\" height=\"100%\"/>\n");
    put_column(LINE, 94, Part::Text("line"), out);
    put_column(TIME, 94, Part::Text("ms"), out);
}

fn put_row<W: Write>(row: Row, drawn: &Drawn<'_>, out: &mut Drawing<'_, W>) {
    let line = row.first_line();
    put_rule(row, out);
    put_column(LINE, line, Part::Place(drawn.line), out);
    put_column(TIME, line, Part::Number(u64::from(drawn.millis)), out);
    if drawn.came {
        put_came(row, drawn, out);
    } else {
        put_call(row, drawn, out);
    }
}

// A packet came, at the first line of the row; what was emitted as a reply goes out at the second.
fn put_came<W: Write>(row: Row, drawn: &Drawn<'_>, out: &mut Drawing<'_, W>) {
    let (first, second) = (row.first_line(), row.second_line());
    put_arrow("sent", WIRE, first, out);
    put_text(between(first), drawn.name, drawn.values, out);
    if is_emitted(drawn.answer) {
        put_arrow("sent reply", SOCKETS, second, out);
        put_text(between(second), b"", drawn.answer, out);
    } else {
        put_text(beside("quiet", second), b"", drawn.answer, out);
    }
    put_state(beside("state", first), drawn.state, out);
}

// A call stands beside the lifeline, and so does its answer, where that is no packet.
fn put_call<W: Write>(row: Row, drawn: &Drawn<'_>, out: &mut Drawing<'_, W>) {
    let (first, second) = (row.first_line(), row.second_line());
    put_text(beside("call", first), drawn.name, drawn.values, out);
    if is_emitted(drawn.answer) {
        put_arrow("sent", SOCKETS, first, out);
        put_text(between(first), b"", drawn.answer, out);
    } else if is_wide(drawn.answer.len(), BESIDE) {
        put_text(between(first), b"", drawn.answer, out);
    } else {
        put_text(beside("quiet", second), b"", drawn.answer, out);
    }
    let place = Place { class: "label state", anchor: Anchor::inside(SOCKETS), y: second, room: BETWEEN };
    put_state(place, drawn.state, out);
}

// Whether a packet is printed in this answer.
fn is_emitted(answer: &[u8]) -> bool {
    answer.starts_with(b"emitted ")
        || answer.starts_with(b"delivered reply ")
        || answer.starts_with(b"not-accepted reply ")
}

fn between(y: usize) -> Place<'static> {
    Place { class: "label", anchor: Anchor::inside(SOCKETS), y, room: BETWEEN }
}

fn beside(class: &str, y: usize) -> Place<'_> {
    Place { class, anchor: Anchor::outside(SOCKETS), y, room: BESIDE }
}

// Two texts, one behind the other, condensed where they are too long.
fn put_text<W: Write>(place: Place<'_>, first: &[u8], second: &[u8], out: &mut Drawing<'_, W>) {
    if first.is_empty() && second.is_empty() {
        return;
    }
    put_class(place.class, out);
    put_place(place.anchor, place.y, out);
    if is_wide(first.len().saturating_add(second.len()), place.room) {
        out.put(" textLength=\"%\" lengthAdjust=\"spacingAndGlyphs\"", &[Part::Place(place.room)]);
    }
    out.put(">%", &[Part::Marked(first)]);
    out.put("%</text>\n", &[Part::Marked(second)]);
}

fn put_class<W: Write>(class: &str, out: &mut Drawing<'_, W>) {
    out.put("<text class=\"%\"", &[Part::Text(class)]);
}

fn put_place<W: Write>(anchor: Anchor, y: usize, out: &mut Drawing<'_, W>) {
    out.put(" % y=\"%\"", &[Part::At(anchor), Part::Place(y)]);
}

// Whether so many characters may be wider than this room, whatever the font: one is at most 37/60 of its size.
fn is_wide(count: usize, room: usize) -> bool {
    count.saturating_mul(37) / 5 > room
}

fn put_state<W: Write>(place: Place<'_>, state: Option<&'static str>, out: &mut Drawing<'_, W>) {
    if let Some(state) = state {
        put_text(place, b"", state.as_bytes(), out);
    }
}

// An arrow under a line of text, from one side to the other.
fn put_arrow<W: Write>(class: &str, from: Side, line: usize, out: &mut Drawing<'_, W>) {
    out.put(
        "<path class=\"%\" d=\"M% %H%\"/>\n",
        &[
            Part::Text(class),
            Part::Place(lifeline(from)),
            Part::Place(line.saturating_add(4)),
            Part::Place(lifeline(from.other())),
        ],
    );
}

// A thin line above a row.
fn put_rule<W: Write>(row: Row, out: &mut Drawing<'_, W>) {
    out.put("<path class=\"row\" d=\"M0 %H%\"/>\n", &[Part::Place(row.edge()), Part::Place(WIDTH)]);
}

// What stands in a column at the left, and ends at `x`.
fn put_column<W: Write>(x: usize, y: usize, part: Part<'_>, out: &mut Drawing<'_, W>) {
    out.put(
        "<text class=\"time\" x=\"%\" text-anchor=\"end\" y=\"%\">%</text>\n",
        &[Part::Place(x), Part::Place(y), part],
    );
}

// A lifeline, and the name above it.
fn put_lifeline<W: Write>(side: Side, name: &str, height: usize, out: &mut Drawing<'_, W>) {
    let x = Part::Place(lifeline(side));
    out.put(
        "<text class=\"name\" x=\"%\" y=\"72\">%</text>\n\
        <path class=\"lifeline\" d=\"M% 82V%\"/>\n",
        &[x, Part::Text(name), x, Part::Place(height)],
    );
}

fn written(is_written: bool) -> Result<(), Unwritten> {
    if is_written { Ok(()) } else { Err(Unwritten) }
}
