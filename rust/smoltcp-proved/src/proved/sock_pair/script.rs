// Made from crates/sock_pair/src/script.rt by rust/translate: change it there.
//! Events as text, a line an event.

use crate::kit::Vec;

mod end;
mod error;
mod forms;
mod keyword;
mod lanes;
pub mod lines;
mod output;
mod pair_line;
mod play;
pub mod stream;
pub mod values;
pub mod words;

use crate::kit::alloc::Global;
use crate::proved::pair_core::Event;
use crate::proved::sock_tcp::TsvalSource;
pub use end::End;
pub use error::ScriptError;
use forms::event;
use lines::Lines;
pub use output::flags;
use pair_line::{PairLine, read_pair_line};
pub use play::{Buffers, NoTimestamps, begin};
use play::{play, read_all};
pub use stream::{Sink, Source, StreamFault};

/// What a script asks for.
#[derive(Debug, PartialEq, Eq)]
pub struct Script {
    /// The sizes of a's receive and transmit buffer, and of b's.
    pub sizes: [usize; 4],
    /// How many bytes each side may accept, where there is a limit.
    pub limit: Option<u32>,
    /// The events, in the order of their lines.
    pub events: Vec<Event>,
}

/// Reads a text as a script: its first line that is not skipped names the sizes, each later one an
/// event.
///
/// The error is the fault of the first line that has one, or `Memory` where memory ran out at a line of an event: that
/// line and all before it have no fault.
pub fn parse(alloc: Global, text: &[u8]) -> Result<Script, ScriptError> {
    let mut lines = Lines::new(text);
    let Some(first) = lines.next() else {
        return Err(ScriptError::NoPairLine { line: lines.number });
    };
    let PairLine { sizes, limit } = read_pair_line(&first)?;
    let events = events(alloc, &mut lines)?;
    Ok(Script { sizes, limit, events })
}

// The events of the lines that are left.
fn events(alloc: Global, lines: &mut Lines<'_>) -> Result<Vec<Event>, ScriptError> {
    let mut events = Vec::new(alloc);
    while let Some(line) = lines.next() {
        let event = event(alloc, &line)?;
        events.push(event)?;
    }
    Ok(events)
}

/// Reads all bytes up to the reader's end, runs them as a script, and writes a line for each outcome
/// and a closing line for each side.
///
/// Where the text is no script, or the reader failed, nothing is written. Where memory ran out, the
/// lines of the steps that were done are written, and no closing lines.
pub fn replay<R: Source, W: Sink>(alloc: Global, reader: &mut R, writer: &mut W) -> End {
    let text = match read_all(alloc, reader) {
        Ok(text) => text,
        Err(end) => return end,
    };
    match parse(alloc, text.as_slice()) {
        Ok(script) => play(alloc, &script, writer),
        Err(ScriptError::Memory) => End::Memory,
        Err(error) => End::Script(error),
    }
}
