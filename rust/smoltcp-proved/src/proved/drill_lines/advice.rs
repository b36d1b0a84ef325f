// Made from crates/drill_lines/src/advice.rt by rust/translate: change it there.
//! What is wrong with a line of a drill, and what would be right.

use crate::proved::drill_lines::shapes::{Shape, shape_of, shapes};
use crate::proved::sock_pair::script::ScriptError;
use crate::proved::sock_pair::script::lines::{Line, Lines};
use core::fmt;

/// What would be right in place of a line.
#[derive(Clone, Copy)]
pub enum Advice {
    /// A line without the carriage return in which it ends.
    NoReturn,
    /// Another first word.
    Names,
    /// These words.
    Words(Shape),
}

/// What would be right in place of the line of a text that this fault names; none where memory ran out.
pub fn advice_on(error: &ScriptError, text: &[u8]) -> Option<Advice> {
    let number = match error {
        ScriptError::NoPairLine { line }
        | ScriptError::UnknownEvent { line }
        | ScriptError::WrongNumberOfWords { line }
        | ScriptError::BadWord { line } => *line,
        ScriptError::Memory => return None,
    };
    let line = line_of(text, number)?;
    if ends_in_return(&line) {
        return Some(Advice::NoReturn);
    }
    match shape_of(line.name) {
        None => Some(Advice::Names),
        Some(shape) => Some(Advice::Words(shape)),
    }
}

// The line of this number.
fn line_of(text: &[u8], number: usize) -> Option<Line<'_>> {
    let mut lines = Lines::new(text);
    for _ in 0..number {
        let line = lines.next()?;
        if line.number == number {
            return Some(line);
        }
    }
    None
}

fn ends_in_return(line: &Line<'_>) -> bool {
    let end = if line.values.is_empty() { line.name } else { line.values };
    end.last() == Some(&b'\r')
}

impl fmt::Display for Advice {
    fn fmt(&self, f: &mut fmt::Formatter<'_>) -> fmt::Result {
        match self {
            Advice::NoReturn => f.write_str("the line ends in a carriage return; right is a line feed alone"),
            Advice::Names => write_names(f),
            Advice::Words(shape) => write_shape(f, shape),
        }
    }
}

fn write_names(f: &mut fmt::Formatter<'_>) -> fmt::Result {
    f.write_str("right is one of:")?;
    for shape in shapes() {
        f.write_str(" ")?;
        f.write_str(shape.0)?;
    }
    Ok(())
}

fn write_shape(f: &mut fmt::Formatter<'_>, shape: &Shape) -> fmt::Result {
    f.write_str("right is: ")?;
    f.write_str(shape.0)?;
    f.write_str(" ")?;
    f.write_str(shape.1)
}
