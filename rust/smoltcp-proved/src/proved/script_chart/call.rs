// Made from crates/script_chart/src/call.rt by rust/translate: change it there.
//! The texts of calls.

use crate::proved::script_chart::drawing::Part;
use crate::proved::sock_pair::{Event, Outcome, Setting};

/// A call of a side, and what it came to: `send "abc": accepted 3`.
#[derive(Clone, Copy)]
pub struct Call<'a> {
    pub event: &'a Event,
    pub outcome: &'a Outcome,
}

impl Call<'_> {
    /// The form of a call: a name, with a number or bytes behind it, or both, and the same of what it came to.
    pub const FORM: &'static str = "%%%: %%%";

    /// The parts of the form.
    pub fn parts(&self) -> [Part<'_>; 6] {
        let (event, outcome) = (self.event, self.outcome);
        [
            Part::Text(event_name(event)),
            number(event_number(event)),
            bytes(event_bytes(event)),
            Part::Text(outcome_name(outcome)),
            number(outcome_number(outcome)),
            bytes(outcome_bytes(outcome)),
        ]
    }
}

fn number(number: Option<usize>) -> Part<'static> {
    match number {
        Some(number) => Part::Named(" ", number as u64),
        None => Part::Nothing,
    }
}

fn bytes(bytes: Option<&[u8]>) -> Part<'_> {
    match bytes {
        Some(bytes) => Part::Quoted(bytes),
        None => Part::Nothing,
    }
}

fn event_number(event: &Event) -> Option<usize> {
    match event {
        Event::Connect { moment, .. } => Some(moment.word as usize),
        Event::RecvSlice { size, .. } => Some(*size),
        Event::Recv { take, .. } => Some(*take),
        Event::Deliver { index, .. } => Some(*index),
        _ => None,
    }
}

fn event_bytes(event: &Event) -> Option<&[u8]> {
    match event {
        Event::SendSlice { bytes, .. } | Event::Send { bytes, .. } => Some(bytes.as_slice()),
        _ => None,
    }
}

fn outcome_number(outcome: &Outcome) -> Option<usize> {
    match outcome {
        Outcome::Accepted(number) | Outcome::Emitted(number) => Some(*number),
        Outcome::Read(bytes) => Some(bytes.len()),
        _ => None,
    }
}

fn outcome_bytes(outcome: &Outcome) -> Option<&[u8]> {
    match outcome {
        Outcome::Read(bytes) if !bytes.is_empty() => Some(bytes.as_slice()),
        _ => None,
    }
}

// What stands before an event's number or bytes.
fn event_name(event: &Event) -> &'static str {
    match event {
        Event::Listen { .. } => "listen",
        Event::Connect { .. } => "connect",
        Event::SendSlice { .. } | Event::Send { .. } => "send",
        Event::RecvSlice { .. } | Event::Recv { .. } => "recv",
        Event::Close { .. } => "close",
        Event::Abort { .. } => "abort",
        Event::Set { setting, .. } => setting_name(*setting),
        Event::Dispatch { moment, .. } if moment.has_address => "dispatch",
        Event::Dispatch { .. } => "dispatch, address gone",
        Event::Deliver { .. } => "deliver",
    }
}

fn setting_name(setting: Setting) -> &'static str {
    match setting {
        Setting::Timeout(_) => "timeout",
        Setting::AckDelay(_) => "ack delay",
        Setting::KeepAlive(_) => "keep-alive",
        Setting::Nagle(true) => "nagle on",
        Setting::Nagle(false) => "nagle off",
        Setting::HopLimit(_) => "hop limit",
        Setting::Congestion(_) => "congestion control",
        Setting::Pause(_) => "pause SYN|ACK",
        Setting::Rules(_) => "rules",
    }
}

// What stands before an outcome's number and bytes.
fn outcome_name(outcome: &Outcome) -> &'static str {
    match outcome {
        Outcome::Opened => "opened",
        Outcome::Done => "done",
        Outcome::Accepted(_) => "accepted",
        Outcome::SendRefused(error) => error.text(),
        Outcome::Read(_) => "read",
        Outcome::RecvRefused(error) => error.text(),
        Outcome::Quiet => "quiet",
        Outcome::Emitted(_) => "emitted",
        Outcome::EmitFailed => "emit failed",
        Outcome::Delivered(_) => "delivered",
        Outcome::AlreadyOpened => "already opened",
        Outcome::NoSegment => "no segment",
        Outcome::StreamLimit => "stream limit",
        Outcome::TooOld => "too old",
        Outcome::NotAccepted(_) => "not accepted",
    }
}
