// Made from crates/sock_pair/src/script/lines.rt by rust/translate: change it there.
//! A script as lines.

use crate::proved::sock_pair::script::words::{len_before, split_word};

/// A line that is not skipped.
#[derive(Clone, Copy)]
pub struct Line<'a> {
    /// The line's number, counted from 1.
    pub number: usize,
    /// Its first word.
    pub name: &'a [u8],
    /// What stands after that.
    pub values: &'a [u8],
}

/// The lines of a text that are still to be read.
pub struct Lines<'a> {
    /// The text from the next line on.
    pub rest: &'a [u8],
    /// The number of the next line.
    pub number: usize,
}

impl<'a> Lines<'a> {
    /// All lines of a text.
    pub fn new(text: &'a [u8]) -> Lines<'a> {
        Lines { rest: text, number: 1 }
    }

    /// The next line that is not skipped; none where there is none.
    pub fn next(&mut self) -> Option<Line<'a>> {
        while !self.rest.is_empty() {
            let number = self.number;
            let line = self.take_line();
            if is_comment(line) {
                continue;
            }
            if let Some((name, values)) = split_word(line) {
                return Some(Line { number, name, values });
            }
        }
        None
    }

    fn take_line(&mut self) -> &'a [u8] {
        let end = len_before(self.rest, b'\n');
        let line = &self.rest[..end];
        self.rest = if end < self.rest.len() { &self.rest[end + 1..] } else { &[] };
        self.number += 1;
        line
    }
}

fn is_comment(line: &[u8]) -> bool {
    line.first() == Some(&b'#')
}
