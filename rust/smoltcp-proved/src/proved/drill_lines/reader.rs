// Made from crates/drill_lines/src/reader.rt by rust/translate: change it there.
//! The lines of a drill, read one after the other.

use crate::kit::alloc::Global;
use crate::proved::drill_lines::forms::request_of;
use crate::proved::drill_lines::names::Names;
use crate::proved::drill_lines::request::Request;
use crate::proved::sock_pair::script::ScriptError;
use crate::proved::sock_pair::script::lines::{Line, Lines};
use crate::proved::sock_pair::script::words::split_word;

/// The lines that are left, and the names of the sockets of the example.
pub struct Reader<'t> {
    lines: Lines<'t>,
    names: Names<'t>,
}

/// What a line asks for, its number, counted from 1, and the words behind its first.
#[derive(Clone, Copy)]
pub struct Numbered<'t> {
    pub line: usize,
    pub name: &'t [u8],
    pub values: &'t [u8],
    pub request: Request<'t>,
}

impl<'t> Reader<'t> {
    /// At the beginning of a text.
    pub fn new(alloc: Global, text: &'t [u8]) -> Reader<'t> {
        Reader { lines: Lines::new(text), names: Names::new(alloc) }
    }

    /// The text that is left.
    pub fn rest(&self) -> &'t [u8] {
        self.lines.rest
    }

    /// The next line that is not skipped; none where there is none.
    ///
    /// The error is the line's fault, or `Memory` where memory ran out at a line that has none.
    pub fn next(&mut self) -> Result<Option<Numbered<'t>>, ScriptError> {
        let Some(line) = self.lines.next() else {
            return Ok(None);
        };
        let numbered = self.read(&line)?;
        Ok(Some(numbered))
    }

    fn read(&mut self, line: &Line<'t>) -> Result<Numbered<'t>, ScriptError> {
        let request = request_of(&self.names, line)?;
        self.note(&request, line)?;
        Ok(Numbered { line: line.number, name: line.name, values: line.values, request })
    }

    // Keeps the names of sockets.
    fn note(&mut self, request: &Request<'t>, line: &Line<'t>) -> Result<(), ScriptError> {
        match request {
            Request::Example(_) => self.names.clear(),
            Request::Make(_) => {
                if let Some((name, _)) = split_word(line.values) {
                    self.names.add(name)?;
                }
            }
            _ => {}
        }
        Ok(())
    }
}
