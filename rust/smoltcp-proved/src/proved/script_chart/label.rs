// Made from crates/script_chart/src/label.rt by rust/translate: change it there.
//! The labels of segments.

use crate::kit::io;
use crate::kit::io::Write;
use crate::proved::script_chart::drawing::{Drawing, Part};
use crate::proved::script_chart::numbers::Numbers;
use crate::proved::script_chart::page::{Anchor, BETWEEN};
use crate::proved::sock_pair::Segment;
use crate::proved::sock_pair::script::flags;

/// What a segment says, after its index, in its place.
#[derive(Clone, Copy)]
pub struct Label<'a> {
    pub index: usize,
    pub segment: &'a Segment,
    pub numbers: Numbers,
    /// The base line.
    pub y: usize,
}

impl Label<'_> {
    /// Draws the text, with an edge of the page's colour, so that it can be read over an arrow, and no arrow is cut by
    /// more than its letters. A text that is too long is condensed.
    pub fn put<W: Write>(&self, out: &mut Drawing<'_, W>) {
        self.begin(out);
        out.put("><tspan class=\"index\">%</tspan> ", &[Part::Place(self.index)]);
        self.put_headers(out);
        out.text("</text>\n");
    }

    fn begin<W: Write>(&self, out: &mut Drawing<'_, W>) {
        let anchor = Anchor::inside(self.segment.from);
        out.put("<text class=\"label\" % y=\"%\"", &[Part::At(anchor), Part::Place(self.y)]);
        if self.width() > BETWEEN {
            out.put(" textLength=\"%\" lengthAdjust=\"spacingAndGlyphs\"", &[Part::Place(BETWEEN)]);
        }
    }

    // How wide the text is at most.
    fn width(&self) -> usize {
        let mut length = Length(0);
        let mut out = Drawing::new(&mut length);
        out.put("% ", &[Part::Place(self.index)]);
        self.put_headers(&mut out);
        length.width()
    }

    fn put_headers<W: Write>(&self, out: &mut Drawing<'_, W>) {
        out.put(HEADERS, &self.headers());
    }
}

/// The name of a side, over its lifeline.
#[derive(Clone, Copy)]
pub struct Name {
    pub name: &'static str,
    /// The middle of the name.
    pub x: usize,
    /// The base line.
    pub y: usize,
}

impl Name {
    /// Draws the name, with an edge of the page's colour.
    pub fn put<W: Write>(&self, out: &mut Drawing<'_, W>) {
        out.put(
            "<text class=\"label name\" x=\"%\" y=\"%\">%</text>\n",
            &[Part::Place(self.x), Part::Place(self.y), Part::Text(self.name)],
        );
    }
}

// A text of which only the length is kept.
struct Length(usize);

impl Length {
    // How wide a text of this length is at most, whatever the font: 37/60 of its size a character.
    fn width(&self) -> usize {
        self.0.saturating_mul(37) / 5
    }
}

impl Write for Length {
    fn write(&mut self, buf: &[u8]) -> io::Result<usize> {
        self.0 = self.0.saturating_add(buf.len());
        Ok(buf.len())
    }

    fn flush(&mut self) -> io::Result<()> {
        Ok(())
    }
}

// `FLAGS seq N ack N win N len N`, the options of a SYN and those of SACK.
const HEADERS: &str = "% seq % ack % win % len %%%%%%%%";

impl Label<'_> {
    // The parts of the headers' form, with `-` where there is no acknowledgement.
    fn headers(&self) -> [Part<'static>; 12] {
        let (header, from) = (&self.segment.header.repr, self.segment.from);
        let [first, second, third] = header.sack_ranges;
        [
            Part::Text(flags(header.control, header.ack_number.is_some())),
            Part::Number(u64::from(self.numbers.of(from, header.seq_number.0))),
            self.ack(),
            Part::Number(u64::from(header.window_len)),
            Part::Place(self.segment.payload.len()),
            size(header.max_seg_size),
            said(header.sack_permitted, " sackOK"),
            scale(header.window_scale),
            said(first.is_some() || second.is_some() || third.is_some(), " sack"),
            self.range(first),
            self.range(second),
            self.range(third),
        ]
    }

    fn ack(&self) -> Part<'static> {
        match self.segment.header.repr.ack_number {
            None => Part::Text("-"),
            Some(ack) => Part::Number(u64::from(self.numbers.of(self.segment.from.other(), ack.0))),
        }
    }

    // A range of the other side's numbers that came out of order: the first number, and that behind the last.
    fn range(&self, range: Option<(u32, u32)>) -> Part<'static> {
        let side = self.segment.from.other();
        match range {
            None => Part::Nothing,
            Some((left, right)) => Part::Range(self.numbers.of(side, left), self.numbers.of(side, right)),
        }
    }
}

// The largest payload that a SYN asks for.
fn size(size: Option<u16>) -> Part<'static> {
    match size {
        None => Part::Nothing,
        Some(size) => Part::Named(" mss ", u64::from(size)),
    }
}

fn scale(scale: Option<u8>) -> Part<'static> {
    match scale {
        None => Part::Nothing,
        Some(scale) => Part::Named(" wscale ", u64::from(scale)),
    }
}

fn said(is_said: bool, text: &'static str) -> Part<'static> {
    if is_said { Part::Text(text) } else { Part::Nothing }
}
