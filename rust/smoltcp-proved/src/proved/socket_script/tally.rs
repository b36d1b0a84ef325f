// Made from crates/socket_script/src/tally.rt by rust/translate: change it there.
//! Which lines of a drill were not as it expects.

use crate::kit::io::Write;

/// What a run is asked to write.
#[derive(Clone, Copy)]
pub enum Wanted {
    /// Lines: what differs, where the drill says what it expects, else the line of each event.
    Lines,
    /// The packets that came and went, as the records of a pcap stream.
    Packets,
    /// A chart of all events, in SVG.
    Chart,
}

/// What a run writes.
#[derive(Clone, Copy)]
pub enum Output {
    /// The line of each event.
    Events,
    /// What is not as the drill expects.
    Differences,
    /// The packets that came and went, as the records of a pcap stream.
    Packets,
    /// A chart of all events.
    Chart,
}

/// How many lines were expected, and how many of them differed.
#[derive(Clone, Copy)]
pub struct Tally {
    /// How many examples began.
    pub examples: usize,
    /// How many lines say what is expected.
    pub expected: usize,
    /// How many of these differed.
    pub differences: usize,
}

/// The output cannot be written.
#[derive(Clone, Copy)]
pub struct Unwritten;

impl Tally {
    /// Nothing was expected so far.
    pub fn new() -> Tally {
        Tally { examples: 0, expected: 0, differences: 0 }
    }

    /// The tallies of two drills together.
    pub fn with(self, other: Tally) -> Tally {
        Tally {
            examples: self.examples.saturating_add(other.examples),
            expected: self.expected.saturating_add(other.expected),
            differences: self.differences.saturating_add(other.differences),
        }
    }

    /// Writes how many examples began, how many lines were expected, and how many differed.
    pub fn write<W: Write>(&self, writer: &mut W) -> Result<(), Unwritten> {
        let (examples, expected, differences) = (self.examples, self.expected, self.differences);
        match writeln!(writer, "examples {examples} expected {expected} differences {differences}") {
            Ok(()) => Ok(()),
            Err(_) => Err(Unwritten),
        }
    }

    /// Compares what came with what is expected, and says whether they are the same.
    pub fn compare(&mut self, expected: &[u8], came: &[u8]) -> bool {
        self.expected = self.expected.saturating_add(1);
        if expected == came {
            return true;
        }
        self.differences = self.differences.saturating_add(1);
        false
    }
}

/// Writes what was expected by the line of this number and what came, each behind `file` and the number.
pub fn put_both<W: Write>(
    writer: &mut W,
    file: &str,
    line: usize,
    expected: &[u8],
    came: &[u8],
) -> Result<(), Unwritten> {
    put_difference(writer, file, line, b"expected ", expected)?;
    put_difference(writer, file, line, b"came ", came)
}

// `FILE line N: WORD TEXT`
fn put_difference<W: Write>(
    writer: &mut W,
    file: &str,
    line: usize,
    word: &[u8],
    text: &[u8],
) -> Result<(), Unwritten> {
    if write!(writer, "{file}line {line}: ").is_err() {
        return Err(Unwritten);
    }
    put(writer, word)?;
    put(writer, text)?;
    put(writer, b"\n")
}

/// Writes bytes.
pub fn put<W: Write>(writer: &mut W, bytes: &[u8]) -> Result<(), Unwritten> {
    if bytes.is_empty() {
        return Ok(());
    }
    match writer.write_all(bytes) {
        Ok(()) => Ok(()),
        Err(_) => Err(Unwritten),
    }
}
