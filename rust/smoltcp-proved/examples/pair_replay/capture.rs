// Made from crates/pair_replay/src/capture.rt by rust/translate: change it there.
//! What is told of a script's events in place of their lines: packets, as a pcap stream, or reasons.

use crate::why::{put_why, why_of};
use smoltcp_proved::kit::alloc::Global;
use smoltcp_proved::kit::io::Write;
use smoltcp_proved::kit::vec;
use smoltcp_proved::proved::ip_wire::ChecksumCapabilities;
use smoltcp_proved::proved::pcap::stream::{RECORD, put_record_header, stream_header};
use smoltcp_proved::proved::segment_wire::packet::emit_tcp;
use smoltcp_proved::proved::sock_pair::script::{
    Buffers, End, NoTimestamps, Script, ScriptError, begin, parse,
};
use smoltcp_proved::proved::sock_pair::{Event, Moment, Outcome, Pair, Segment, Side};

/// What is written of a script's events.
#[derive(Debug, Clone, Copy)]
pub enum Told {
    /// The packets that this side sent and those that came to it, each at its moment.
    Packets(Side),
    /// What becomes of each segment that is delivered, and of each dispatch, and why.
    Reasons,
}

/// Runs a text as a script, and writes what is told of it.
///
/// Where the text is no script, nothing is written. Where memory ran out, it is told of the events before.
pub fn capture<W: Write>(alloc: Global, text: &[u8], told: Told, out: &mut W) -> End {
    match parse(alloc, text) {
        Ok(script) => capture_script(alloc, &script, told, out),
        Err(ScriptError::Memory) => End::Memory,
        Err(error) => End::Script(error),
    }
}

fn capture_script<W: Write>(alloc: Global, script: &Script, told: Told, out: &mut W) -> End {
    let Ok(buffers) = Buffers::new(alloc, script.sizes) else {
        return End::Memory;
    };
    let Buffers { mut arx, mut atx, mut brx, mut btx } = buffers;
    let (arx, atx) = (arx.as_mut_slice(), atx.as_mut_slice());
    let (brx, btx) = (brx.as_mut_slice(), btx.as_mut_slice());
    let mut pair = begin(alloc, arx, atx, brx, btx, script.limit);
    match capture_events(alloc, &mut pair, script.events.as_slice(), told, out) {
        Ok(()) => End::Done,
        Err(end) => end,
    }
}

fn capture_events<W: Write>(
    alloc: Global,
    pair: &mut Pair<'_, NoTimestamps>,
    events: &[Event],
    told: Told,
    out: &mut W,
) -> Result<(), End> {
    if let Told::Packets(_) = told {
        put(out, &stream_header())?;
    }
    for event in events {
        let why = why_of(pair, event);
        let Ok(outcome) = pair.step(event) else {
            return Err(End::Memory);
        };
        match told {
            Told::Packets(side) => put_packets(alloc, pair, event, &outcome, side, out)?,
            Told::Reasons => put_why(alloc, why, out)?,
        }
    }
    Ok(())
}

// Writes the packets of an event that this side sees.
fn put_packets<W: Write>(
    alloc: Global,
    pair: &Pair<'_, NoTimestamps>,
    event: &Event,
    outcome: &Outcome,
    side: Side,
    out: &mut W,
) -> Result<(), End> {
    let (came, went) = packets_of(event, outcome);
    let micros = micros_of(event);
    put_segment(alloc, micros, sent_by(pair, side.other(), came), out)?;
    put_segment(alloc, micros, sent_by(pair, side, went), out)
}

// The indexes of the segment that was delivered, and of the one that was emitted, in an event.
fn packets_of(event: &Event, outcome: &Outcome) -> (Option<usize>, Option<usize>) {
    match (event, outcome) {
        (Event::Deliver { index, .. }, Outcome::Delivered(reply) | Outcome::NotAccepted(reply)) => {
            (Some(*index), *reply)
        }
        (_, Outcome::Emitted(index)) => (None, Some(*index)),
        _ => (None, None),
    }
}

// When packets go out and come in.
fn micros_of(event: &Event) -> u64 {
    match event {
        Event::Dispatch { moment, .. } | Event::Deliver { moment, .. } => micros(moment),
        _ => 0,
    }
}

fn micros(moment: &Moment) -> u64 {
    let millis = moment.now.total_millis();
    if millis < 0 {
        return 0;
    }
    (millis as u64).saturating_mul(1000)
}

// The segment of this index, where this side sent it.
fn sent_by<'p>(pair: &'p Pair<'_, NoTimestamps>, side: Side, index: Option<usize>) -> Option<&'p Segment> {
    let segment = pair.segments().get(index?)?;
    if segment.from == side { Some(segment) } else { None }
}

// Writes the record of a segment, if there is one.
fn put_segment<W: Write>(
    alloc: Global,
    micros: u64,
    segment: Option<&Segment>,
    out: &mut W,
) -> Result<(), End> {
    let Some(segment) = segment else {
        return Ok(());
    };
    segment.fits(); // for its contract
    let (ip, repr) = (&segment.header.ip_repr, segment.as_repr());
    let Ok(mut packet) = vec![in alloc; 0u8; ip.header_len() + repr.buffer_len()] else {
        return Err(End::Memory);
    };
    emit_tcp(ip, &repr, packet.as_mut_slice(), &ChecksumCapabilities::default());
    let mut header = [0u8; RECORD];
    put_record_header(&mut header, micros, packet.len());
    put(out, &header)?;
    put(out, packet.as_slice())
}

/// Writes these bytes.
pub fn put<W: Write>(out: &mut W, bytes: &[u8]) -> Result<(), End> {
    match out.write_all(bytes) {
        Ok(()) => Ok(()),
        Err(_) => Err(End::Write),
    }
}
