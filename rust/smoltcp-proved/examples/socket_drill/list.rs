// Made from crates/socket_drill/src/list.rt by rust/translate: change it there.
//! The names of a drill's examples.

use smoltcp_proved::kit::io::{self, Write};
use smoltcp_proved::proved::sock_pair::script::words::{len_before, split_word};

/// Writes a line for each example of a drill: its name, and the comment lines right above it, joined by spaces.
///
/// The error is the writer's.
pub fn list<W: Write>(text: &[u8], output: &mut W) -> io::Result<()> {
    let mut rest = text;
    let mut comment = text;
    for _ in 0..text.len() {
        if rest.is_empty() {
            break;
        }
        let (line, after) = first_line(rest);
        if line.first() != Some(&b'#') {
            if let Some(name) = name_of(line) {
                let above = comment.len().saturating_sub(rest.len());
                write_example(name, &comment[..above], output)?;
            }
            comment = after;
        }
        rest = after;
    }
    Ok(())
}

// The name that a line gives to an example; none where it is another line.
fn name_of(line: &[u8]) -> Option<&[u8]> {
    let (first, rest) = split_word(line)?;
    if first != b"example".as_slice() {
        return None;
    }
    let (name, _) = split_word(rest)?;
    Some(name)
}

fn write_example<W: Write>(name: &[u8], comment: &[u8], output: &mut W) -> io::Result<()> {
    output.write_all(name)?;
    let mut before: &[u8] = b":";
    let mut rest = comment;
    for _ in 0..comment.len() {
        if rest.is_empty() {
            break;
        }
        let (line, after) = first_line(rest);
        output.write_all(before)?;
        output.write_all(text_of(line))?;
        before = b"";
        rest = after;
    }
    output.write_all(b"\n")
}

// A comment's line behind its `#`, from the space on.
fn text_of(line: &[u8]) -> &[u8] {
    match line {
        [b'#', text @ ..] => text,
        _ => line,
    }
}

// A text's first line, and what stands behind its line feed.
fn first_line(text: &[u8]) -> (&[u8], &[u8]) {
    let len = len_before(text, b'\n');
    let after = usize::min(len + 1, text.len());
    (&text[..len], &text[after..])
}
