// Made from crates/socket_script/src/line.rt by rust/translate: change it there.
//! The line of an event, as it is written.
//!
//! A form is a text with a `%` for each part that stands in it. Where memory runs out the line is cut: nothing is
//! written behind that, and `is_cut` says so, so what writes need not look at each answer.

use crate::kit::String;
use crate::kit::alloc::{AllocError, Global};
use crate::proved::ip_wire::{IpAddress, IpEndpoint, IpListenEndpoint};
use crate::proved::smoltcp_socket::time::Duration;
use crate::proved::socket_script::shown::Address;
use core::fmt::{Display, Write};

/// The text of an event's line so far.
pub struct Line {
    text: String,
    is_cut: bool,
}

/// What stands in the place of a `%`.
#[derive(Clone, Copy)]
pub enum Part<'p> {
    /// A text.
    Text(&'p str),
    /// A count.
    Count(usize),
    /// A number.
    Number(u64),
    /// A hop limit, or `-`.
    Limit(Option<u8>),
    /// Milliseconds, or `-`.
    Millis(Option<Duration>),
    /// An address.
    Address(IpAddress),
    /// An endpoint, or `-`.
    End(Option<IpEndpoint>),
    /// A port at an address, or at any.
    Port(IpListenEndpoint),
}

impl Line {
    /// An empty line.
    pub fn new(alloc: Global) -> Line {
        Line { text: String::new(alloc), is_cut: false }
    }

    /// Begins the line again.
    pub fn clear(&mut self) {
        self.text.clear();
        self.is_cut = false;
    }

    /// Whether memory ran out.
    pub fn is_cut(&self) -> bool {
        self.is_cut
    }

    /// Memory ran out.
    pub fn cut(&mut self) {
        self.is_cut = true;
    }

    /// The bytes of the text.
    pub fn as_bytes(&self) -> &[u8] {
        self.text.as_bytes()
    }

    /// Writes a text.
    pub fn say(&mut self, text: &str) {
        if !self.is_cut {
            self.is_cut = self.text.push_str(text).is_err();
        }
    }

    /// Writes a value.
    pub fn show<D: Display>(&mut self, value: D) {
        if !self.is_cut {
            self.is_cut = write!(self.text, "{value}").is_err();
        }
    }

    /// Writes a form with its parts; a `%` that has none is left out.
    pub fn put(&mut self, form: &str, parts: &[Part<'_>]) {
        if !self.is_cut {
            self.is_cut = put_form(&mut self.text, form, parts).is_err();
        }
    }
}

fn put_form(out: &mut String, form: &str, parts: &[Part<'_>]) -> Result<(), AllocError> {
    let mut parts = parts.iter();
    for piece in form.split_inclusive('%') {
        match piece.strip_suffix('%') {
            None => out.push_str(piece)?,
            Some(text) => put_behind(out, text, parts.next())?,
        }
    }
    Ok(())
}

// A part behind a text.
fn put_behind(out: &mut String, text: &str, part: Option<&Part<'_>>) -> Result<(), AllocError> {
    out.push_str(text)?;
    match part {
        Some(part) => put_part(out, *part),
        None => Ok(()),
    }
}

fn put_part(out: &mut String, part: Part<'_>) -> Result<(), AllocError> {
    match part {
        Part::Text(text) => out.push_str(text),
        Part::Count(count) => put_number(out, count as u64),
        Part::Number(number) => put_number(out, number),
        Part::Limit(Some(limit)) => put_number(out, u64::from(limit)),
        Part::Millis(Some(duration)) => put_number(out, duration.total_millis()),
        Part::Address(addr) => put_value(out, Address(addr)),
        Part::End(Some(endpoint)) => put_value(out, endpoint),
        Part::Port(endpoint) => put_port(out, endpoint),
        Part::Limit(None) | Part::Millis(None) | Part::End(None) => out.push_str("-"),
    }
}

fn put_number(out: &mut String, number: u64) -> Result<(), AllocError> {
    write!(out, "{number}")
}

fn put_value<D: Display>(out: &mut String, value: D) -> Result<(), AllocError> {
    write!(out, "{value}")
}

fn put_port(out: &mut String, endpoint: IpListenEndpoint) -> Result<(), AllocError> {
    let port = endpoint.port;
    match endpoint.addr {
        None => put_number(out, u64::from(port)),
        Some(addr) => {
            let addr = Address(addr);
            write!(out, "{addr}:{port}")
        }
    }
}
