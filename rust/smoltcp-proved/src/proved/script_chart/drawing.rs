// Made from crates/script_chart/src/drawing.rt by rust/translate: change it there.
//! What is written of a picture, up to the first failure of its writer.
//!
//! A form is a text with a `%` for each part that stands in it. Behind a failure nothing is written, so what draws goes
//! on without a look at each answer, and `is_whole` says at the end whether all of it was written.

use crate::kit::io;
use crate::kit::io::Write;
use crate::proved::script_chart::page::Anchor;
use crate::proved::script_chart::text::{Marked, Quoted};

/// A picture on its way to a writer.
pub struct Drawing<'w, W> {
    out: &'w mut W,
    failed: bool,
}

/// What stands in the place of a `%`.
#[derive(Clone, Copy)]
pub enum Part<'p> {
    /// Nothing.
    Nothing,
    /// A text.
    Text(&'p str),
    /// A place of the page, or a count.
    Place(usize),
    /// A number.
    Number(u64),
    /// A number behind a text.
    Named(&'p str, u64),
    /// Two numbers, with a space in front: a range.
    Range(u32, u32),
    /// Where a text begins or ends.
    At(Anchor),
    /// Bytes in quotation marks, with a space in front.
    Quoted(&'p [u8]),
    /// Bytes as XML text, all of them.
    Marked(&'p [u8]),
}

impl<W: Write> Drawing<'_, W> {
    /// Nothing was written so far.
    pub fn new(out: &mut W) -> Drawing<'_, W> {
        Drawing { out, failed: false }
    }

    /// Whether all was written.
    pub fn is_whole(&self) -> bool {
        !self.failed
    }

    /// Writes a text as it is.
    pub fn text(&mut self, text: &str) {
        if !self.failed {
            self.failed = self.out.write_all(text.as_bytes()).is_err();
        }
    }

    /// Writes a form with its parts; a `%` that has none is left out.
    pub fn put(&mut self, form: &str, parts: &[Part<'_>]) {
        if !self.failed {
            self.failed = put_form(self.out, form, parts).is_err();
        }
    }
}

fn put_form<W: Write>(out: &mut W, form: &str, parts: &[Part<'_>]) -> io::Result<()> {
    let mut parts = parts.iter();
    for piece in form.split_inclusive('%') {
        match piece.strip_suffix('%') {
            None => out.write_all(piece.as_bytes())?,
            Some(text) => put_behind(out, text, parts.next())?,
        }
    }
    Ok(())
}

// A part behind a text.
fn put_behind<W: Write>(out: &mut W, text: &str, part: Option<&Part<'_>>) -> io::Result<()> {
    out.write_all(text.as_bytes())?;
    match part {
        Some(part) => put_part(out, *part),
        None => Ok(()),
    }
}

fn put_part<W: Write>(out: &mut W, part: Part<'_>) -> io::Result<()> {
    match part {
        Part::Nothing => Ok(()),
        Part::Text(text) => out.write_all(text.as_bytes()),
        Part::Place(place) => put_named(out, "", place as u64),
        Part::Number(number) => put_named(out, "", number),
        Part::Named(name, number) => put_named(out, name, number),
        Part::Range(left, right) => write!(out, " {left}-{right}"),
        Part::At(anchor) => put_anchor(out, anchor),
        Part::Quoted(bytes) => write!(out, " {}", Quoted(bytes)),
        Part::Marked(bytes) => write!(out, "{}", Marked(bytes)),
    }
}

fn put_named<W: Write>(out: &mut W, name: &str, number: u64) -> io::Result<()> {
    write!(out, "{name}{number}")
}

fn put_anchor<W: Write>(out: &mut W, anchor: Anchor) -> io::Result<()> {
    match anchor {
        Anchor::Start(x) => write!(out, "x=\"{x}\""),
        Anchor::End(x) => write!(out, "x=\"{x}\" text-anchor=\"end\""),
    }
}
