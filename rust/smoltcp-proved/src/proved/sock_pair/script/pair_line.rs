// Made from crates/sock_pair/src/script/pair_line.rt by rust/translate: change it there.
//! The line that names the buffers' sizes and the limit.

use crate::proved::sock_pair::script::error::ScriptError;
use crate::proved::sock_pair::script::lines::Line;
use crate::proved::sock_pair::script::values::{limit, number};
use crate::proved::sock_pair::script::words::five_words;

// The largest size of a buffer.
const BUFFER: usize = 1_048_576;

/// What the line that begins a script says.
#[derive(Clone, Copy)]
pub struct PairLine {
    /// The sizes in bytes of a's receive and transmit buffer, and of b's.
    pub sizes: [usize; 4],
    /// How many bytes each side may accept, or None for any number.
    pub limit: Option<u32>,
}

/// What the line `pair ARX ATX BRX BTX LIMIT` names, or its fault.
pub fn read_pair_line(line: &Line<'_>) -> Result<PairLine, ScriptError> {
    if line.name != b"pair".as_slice() {
        return Err(ScriptError::NoPairLine { line: line.number });
    }
    pair_line(line.number, line.values)
}

fn pair_line(line: usize, values: &[u8]) -> Result<PairLine, ScriptError> {
    let Some((arx, atx, brx, btx, last)) = five_words(values) else {
        return Err(ScriptError::WrongNumberOfWords { line });
    };
    match (sizes(arx, atx, brx, btx), limit(last)) {
        (Some(sizes), Some(limit)) => Ok(PairLine { sizes, limit }),
        _ => Err(ScriptError::BadWord { line }),
    }
}

fn sizes(arx: &[u8], atx: &[u8], brx: &[u8], btx: &[u8]) -> Option<[usize; 4]> {
    match (number(arx, BUFFER), number(atx, BUFFER), number(brx, BUFFER), number(btx, BUFFER)) {
        (Some(arx), Some(atx), Some(brx), Some(btx)) => Some([arx, atx, brx, btx]),
        _ => None,
    }
}
