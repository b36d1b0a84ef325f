// Made from crates/sock_pair/src/script/output.rt by rust/translate: change it there.
//! The lines that a replay prints. They go to the sink piece by piece, so they take no memory.

use crate::proved::control_wire::{TcpControl, TcpSeqNumber};
use crate::proved::pair_core::{Outcome, Pair, Segment, Side};
use crate::proved::sock_pair::script::stream::{Sink, StreamFault};
use crate::proved::sock_tcp::TsvalSource;

fn put<W: Sink>(sink: &mut W, text: &str) -> Result<(), StreamFault> {
    sink.write_all(text.as_bytes())
}

// One text, and another behind it.
fn put_two<W: Sink>(sink: &mut W, first: &str, second: &str) -> Result<(), StreamFault> {
    match put(sink, first) {
        Ok(()) => put(sink, second),
        Err(fault) => Err(fault),
    }
}

fn put_byte<W: Sink>(sink: &mut W, byte: u8) -> Result<(), StreamFault> {
    sink.write_all(&[byte])
}

// A number in decimal digits.
fn put_number<W: Sink>(sink: &mut W, number: usize) -> Result<(), StreamFault> {
    if number < 10 {
        return put_byte(sink, b'0' + number as u8);
    }
    put_number(sink, number / 10)?;
    put_byte(sink, b'0' + (number % 10) as u8)
}

// A label and a number.
fn put_count<W: Sink>(sink: &mut W, label: &str, number: usize) -> Result<(), StreamFault> {
    match put(sink, label) {
        Ok(()) => put_number(sink, number),
        Err(fault) => Err(fault),
    }
}

/// The control bits of a segment, as a replay prints them. None, PSH and FIN are printed with `ACK`, since each such
/// segment has an acknowledgement.
pub fn flags(control: TcpControl, has_ack: bool) -> &'static str {
    match (control, has_ack) {
        (TcpControl::None, _) => "ACK",
        (TcpControl::Psh, _) => "PSH|ACK",
        (TcpControl::Fin, _) => "FIN|ACK",
        (TcpControl::Syn, true) => "SYN|ACK",
        (TcpControl::Syn, false) => "SYN",
        (TcpControl::Rst, true) => "RST|ACK",
        (TcpControl::Rst, false) => "RST",
    }
}

fn put_ack<W: Sink>(sink: &mut W, ack: Option<TcpSeqNumber>) -> Result<(), StreamFault> {
    match ack {
        None => put(sink, "-"),
        Some(number) => put_number(sink, number.0 as usize),
    }
}

// `FLAGS seq N ack N win N len N`
fn put_segment<W: Sink>(sink: &mut W, segment: &Segment) -> Result<(), StreamFault> {
    let header = &segment.header.repr;
    put(sink, flags(header.control, header.ack_number.is_some()))?;
    put_count(sink, " seq ", header.seq_number.0 as usize)?;
    put(sink, " ack ")?;
    put_ack(sink, header.ack_number)?;
    put_count(sink, " win ", header.window_len as usize)?;
    put_count(sink, " len ", segment.payload.len())
}

// A segment's index, and the segment.
fn put_numbered<W: Sink>(sink: &mut W, segments: &[Segment], index: usize) -> Result<(), StreamFault> {
    put_number(sink, index)?;
    match segments.get(index) {
        None => Ok(()),
        Some(segment) => {
            put(sink, " ")?;
            put_segment(sink, segment)
        }
    }
}

// ` reply K SEG`, or nothing.
fn put_reply<W: Sink>(sink: &mut W, segments: &[Segment], reply: Option<usize>) -> Result<(), StreamFault> {
    match reply {
        None => Ok(()),
        Some(index) => {
            put(sink, " reply ")?;
            put_numbered(sink, segments, index)
        }
    }
}

// A word, and the reply behind it.
fn put_replied<W: Sink>(
    sink: &mut W,
    word: &str,
    segments: &[Segment],
    reply: Option<usize>,
) -> Result<(), StreamFault> {
    match put(sink, word) {
        Ok(()) => put_reply(sink, segments, reply),
        Err(fault) => Err(fault),
    }
}

// ` BYTES`, or nothing.
fn put_bytes<W: Sink>(sink: &mut W, bytes: &[u8]) -> Result<(), StreamFault> {
    match bytes {
        [] => Ok(()),
        _ => {
            put(sink, " ")?;
            sink.write_all(bytes)
        }
    }
}

// `read N BYTES`
fn put_read<W: Sink>(sink: &mut W, bytes: &[u8]) -> Result<(), StreamFault> {
    match put_count(sink, "read ", bytes.len()) {
        Ok(()) => put_bytes(sink, bytes),
        Err(fault) => Err(fault),
    }
}

// `emitted K SEG`
fn put_emitted<W: Sink>(sink: &mut W, segments: &[Segment], index: usize) -> Result<(), StreamFault> {
    match put(sink, "emitted ") {
        Ok(()) => put_numbered(sink, segments, index),
        Err(fault) => Err(fault),
    }
}

// The line of an outcome without its line feed.
fn put_outcome<W: Sink>(sink: &mut W, segments: &[Segment], outcome: &Outcome) -> Result<(), StreamFault> {
    match outcome {
        Outcome::Opened => put(sink, "opened"),
        Outcome::Done => put(sink, "done"),
        Outcome::Accepted(count) => put_count(sink, "accepted ", *count),
        Outcome::SendRefused(error) => put_two(sink, "send-refused ", error.text()),
        Outcome::Read(bytes) => put_read(sink, bytes.as_slice()),
        Outcome::RecvRefused(error) => put_two(sink, "recv-refused ", error.text()),
        Outcome::Quiet => put(sink, "quiet"),
        Outcome::Emitted(index) => put_emitted(sink, segments, *index),
        Outcome::EmitFailed => put(sink, "emit-failed"),
        Outcome::Delivered(reply) => put_replied(sink, "delivered", segments, *reply),
        Outcome::AlreadyOpened => put(sink, "already-opened"),
        Outcome::NoSegment => put(sink, "no-segment"),
        Outcome::StreamLimit => put(sink, "stream-limit"),
        Outcome::TooOld => put(sink, "too-old"),
        Outcome::NotAccepted(reply) => put_replied(sink, "not-accepted", segments, *reply),
    }
}

fn write_outcome<W: Sink>(sink: &mut W, segments: &[Segment], outcome: &Outcome) -> Result<(), StreamFault> {
    match put_outcome(sink, segments, outcome) {
        Ok(()) => put_byte(sink, b'\n'),
        Err(fault) => Err(fault),
    }
}

fn side_name(side: Side) -> &'static str {
    match side {
        Side::A => "a ",
        Side::B => "b ",
    }
}

// `NAME STATE accepted N handed-out N queued N`, where the name ends with a space.
fn put_closing<W: Sink>(
    sink: &mut W,
    name: &str,
    state: &str,
    accepted: usize,
    handed_out: usize,
    queued: usize,
) -> Result<(), StreamFault> {
    put(sink, name)?;
    put(sink, state)?;
    put_count(sink, " accepted ", accepted)?;
    put_count(sink, " handed-out ", handed_out)?;
    put_count(sink, " queued ", queued)?;
    put_byte(sink, b'\n')
}

// The closing line of a side: its state, and how many bytes it accepted, handed out and has in its
// receive queue.
fn write_side<W: Sink, G: TsvalSource>(
    sink: &mut W,
    pair: &Pair<'_, G>,
    side: Side,
) -> Result<(), StreamFault> {
    let state = pair.socket(side).state().name();
    let accepted = pair.accepted(side).len();
    let handed_out = pair.handed_out(side).len();
    let queued = pair.socket(side).recv_queue();
    put_closing(sink, side_name(side), state, accepted, handed_out, queued)
}

/// Writes the closing lines of a and of b.
pub fn write_sides<W: Sink, G: TsvalSource>(sink: &mut W, pair: &Pair<'_, G>) -> Result<(), StreamFault> {
    match write_side(sink, pair, Side::A) {
        Ok(()) => write_side(sink, pair, Side::B),
        Err(fault) => Err(fault),
    }
}

/// Writes the lines of outcomes, whose segments stand in `segments`.
pub fn write_outcomes<W: Sink>(
    sink: &mut W,
    segments: &[Segment],
    outcomes: &[Outcome],
) -> Result<(), StreamFault> {
    for outcome in outcomes {
        write_outcome(sink, segments, outcome)?;
    }
    Ok(())
}
