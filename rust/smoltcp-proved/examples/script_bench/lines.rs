// Made from crates/script_bench/src/lines.rt by rust/translate: change it there.
//! Scripts of several kinds. What each event comes to is known beforehand, so that the indexes of the segments are
//! those that the run gives them.

use crate::random::Random;
use crate::text::Text;
use smoltcp_proved::kit::Vec;
use smoltcp_proved::kit::alloc::{AllocError, Global};

/// A kind of script.
#[derive(Clone, Copy)]
pub enum Kind {
    /// Pieces of some 1,000 bytes, four of them before an acknowledgement.
    Bulk,
    /// Pieces of 1 to 20 bytes, each acknowledged.
    Chatter,
    /// Pieces of any size that overtake others, come twice or are lost.
    Rough,
    /// A few pieces among many dispatches of which nothing comes, with comments and runs of spaces.
    Quiet,
}

impl Kind {
    /// Its name.
    pub fn name(self) -> &'static str {
        match self {
            Kind::Bulk => "bulk",
            Kind::Chatter => "chatter",
            Kind::Rough => "rough",
            Kind::Quiet => "quiet",
        }
    }
}

const OPENING: &[u8] = b"\
pair 65536 65536 65536 65536 -
listen b
connect a 1000
nagle a off
nagle b off
dispatch a 0
deliver 0 0 5000
dispatch b 0
deliver 1 0 0
dispatch a 0
deliver 2 0 0
";

/// A script of so many rounds.
pub fn script(alloc: Global, kind: Kind, rounds: u32, random: &mut Random) -> Result<Vec<u8>, AllocError> {
    let mut text = Text::new(alloc, random)?;
    text.put(OPENING)?;
    text.count(3);
    if let Kind::Bulk = kind {
        begin_slowly(&mut text, random)?;
    }
    for _ in 0..rounds {
        match kind {
            Kind::Bulk => bulk(&mut text, random)?,
            Kind::Chatter => chatter(&mut text, random)?,
            Kind::Rough => rough(&mut text, random)?,
            Kind::Quiet => quiet(&mut text, random)?,
        }
    }
    text.put(b"close a\n")?;
    Ok(text.bytes)
}

// Reads, and lets the acknowledgement that is due arrive.
fn acknowledge(text: &mut Text, random: &mut Random) -> Result<(), AllocError> {
    text.wait(20);
    text.put(b"recv b 8192\n")?;
    text.dispatch(b"b")?;
    text.deliver(text.emitted, random.word())?;
    text.count(1);
    Ok(())
}

// Single pieces, each acknowledged, until the congestion window has room for four.
fn begin_slowly(text: &mut Text, random: &mut Random) -> Result<(), AllocError> {
    for _ in 0..30 {
        text.wait(1);
        text.send(1000, random)?;
        text.dispatch(b"a")?;
        text.deliver(text.emitted, random.word())?;
        text.count(1);
        acknowledge(text, random)?;
    }
    Ok(())
}

fn bulk(text: &mut Text, random: &mut Random) -> Result<(), AllocError> {
    text.wait(1);
    for _ in 0..4 {
        text.send(900 + random.below(200) as usize, random)?;
        text.dispatch(b"a")?;
        text.deliver(text.emitted, random.word())?;
        text.count(1);
    }
    acknowledge(text, random)
}

fn chatter(text: &mut Text, random: &mut Random) -> Result<(), AllocError> {
    text.wait(1);
    text.send(1 + random.below(20) as usize, random)?;
    text.dispatch(b"a")?;
    text.deliver(text.emitted, random.word())?;
    text.count(1);
    acknowledge(text, random)
}

fn rough(text: &mut Text, random: &mut Random) -> Result<(), AllocError> {
    match random.below(8) {
        0 => lost(text, random),
        1 | 2 => repeated(text, random),
        _ => reordered(text, random),
    }
}

// A segment is lost, and is sent again when its timer has run out; a few others show how long the way takes.
fn lost(text: &mut Text, random: &mut Random) -> Result<(), AllocError> {
    text.wait(1);
    text.send(1 + random.below(1000) as usize, random)?;
    text.dispatch(b"a")?;
    text.wait(3000);
    text.dispatch(b"a")?;
    text.count(1);
    text.deliver(text.emitted, random.word())?;
    text.count(1);
    acknowledge(text, random)?;
    for _ in 0..3 {
        chatter(text, random)?;
    }
    Ok(())
}

// A segment comes twice, and is acknowledged at once the second time.
fn repeated(text: &mut Text, random: &mut Random) -> Result<(), AllocError> {
    text.wait(1);
    text.send(1 + random.below(1000) as usize, random)?;
    text.dispatch(b"a")?;
    text.deliver(text.emitted, random.word())?;
    text.deliver(text.emitted, random.word())?;
    text.deliver(text.emitted.wrapping_add(1), random.word())?;
    text.count(2);
    text.wait(20);
    text.put(b"recv b 8192\n")
}

// Of four segments the second comes last: the others behind it are acknowledged again, and it with them.
fn reordered(text: &mut Text, random: &mut Random) -> Result<(), AllocError> {
    text.wait(1);
    for _ in 0..4 {
        text.send(1 + random.below(300) as usize, random)?;
        text.dispatch(b"a")?;
    }
    for place in [0u32, 2, 3, 1, 4, 5, 6] {
        text.deliver(text.emitted.wrapping_add(place), random.word())?;
    }
    text.count(7);
    text.wait(20);
    text.put(b"recv b 8192\n")
}

fn quiet(text: &mut Text, random: &mut Random) -> Result<(), AllocError> {
    if random.below(8) == 0 {
        text.put(b"# a few bytes\n\n")?;
        return chatter(text, random);
    }
    for side in [b"a", b"b"] {
        text.wait(1 + random.below(50));
        text.put(b"  dispatch   ")?;
        text.put(side)?;
        text.put(b"    ")?;
        text.number(text.now)?;
        text.put(b"  \n")?;
    }
    text.put(b"# nothing is due\n")
}
