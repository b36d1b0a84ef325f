// Made from crates/script_chart/src/play.rt by rust/translate: change it there.
//! The run of a script, and the picture of it.

use crate::kit::Vec;
use crate::kit::alloc::Global;
use crate::kit::io::Write;
use crate::proved::script_chart::history::run;
use crate::proved::script_chart::numbers::Numbers;
use crate::proved::script_chart::picture::Picture;
use crate::proved::script_chart::{chart, sequence};
use crate::proved::sock_pair::script::lines::Lines;
use crate::proved::sock_pair::script::{Buffers, End, NoTimestamps, Script, ScriptError, begin, parse};
use crate::proved::sock_pair::{Event, Pair};

/// Runs a text as a script, and draws what happened.
///
/// Where the text is no script, nothing is written. Where memory ran out, the picture shows the events that were done.
pub fn draw<W: Write>(alloc: Global, text: &[u8], picture: Picture, out: &mut W) -> End {
    match parse(alloc, text) {
        Ok(script) => play(alloc, text, &script, picture, out),
        Err(ScriptError::Memory) => End::Memory,
        Err(error) => End::Script(error),
    }
}

// Runs the script of a text and draws it.
fn play<W: Write>(alloc: Global, text: &[u8], script: &Script, picture: Picture, out: &mut W) -> End {
    let Ok(buffers) = Buffers::new(alloc, script.sizes) else {
        return End::Memory;
    };
    let Buffers { mut arx, mut atx, mut brx, mut btx } = buffers;
    let (arx, atx) = (arx.as_mut_slice(), atx.as_mut_slice());
    let (brx, btx) = (brx.as_mut_slice(), btx.as_mut_slice());
    let mut pair = begin(alloc, arx, atx, brx, btx, script.limit);
    let mut lines = Lines::new(text);
    let _pair_line = lines.next();
    draw_events(alloc, &mut pair, script.events.as_slice(), &mut lines, picture, out)
}

// Runs the events, whose lines these are, and draws them.
fn draw_events<W: Write>(
    alloc: Global,
    pair: &mut Pair<'_, NoTimestamps>,
    events: &[Event],
    lines: &mut Lines<'_>,
    picture: Picture,
    out: &mut W,
) -> End {
    let mut steps = Vec::new(alloc);
    let end = run(pair, events, lines, &mut steps);
    let (steps, segments) = (steps.as_slice(), pair.segments());
    let drawn = match picture {
        Picture::Chart { relative: false } => chart::draw(alloc, out, steps, segments, Numbers::ABSOLUTE),
        Picture::Chart { relative: true } => {
            chart::draw(alloc, out, steps, segments, Numbers::relative(segments))
        }
        Picture::Sequence(side) => sequence::draw(alloc, out, steps, segments, side),
    };
    match drawn {
        End::Done => end,
        fault => fault,
    }
}
