// Made from crates/script_chart/src/text.rt by rust/translate: change it there.
//! Bytes as text of the chart.

use core::fmt;
use core::fmt::Write as _;

// So many characters of a text are shown.
const SHOWN: usize = 12;

/// Bytes in quotation marks, as XML text: as many of the first as there is room for, and two dots where there are more.
#[derive(Clone, Copy)]
pub struct Quoted<'a>(pub &'a [u8]);

impl fmt::Display for Quoted<'_> {
    fn fmt(&self, f: &mut fmt::Formatter<'_>) -> fmt::Result {
        let mut room = SHOWN;
        f.write_str("\"")?;
        for byte in self.0 {
            let width = width(*byte);
            if width > room {
                f.write_str("..")?;
                break;
            }
            room -= width;
            write_byte(f, *byte)?;
        }
        f.write_str("\"")
    }
}

/// Bytes as XML text, all of them.
#[derive(Clone, Copy)]
pub struct Marked<'a>(pub &'a [u8]);

impl fmt::Display for Marked<'_> {
    fn fmt(&self, f: &mut fmt::Formatter<'_>) -> fmt::Result {
        for byte in self.0 {
            match *byte {
                b'"' => f.write_str("\"")?,
                byte => write_byte(f, byte)?,
            }
        }
        Ok(())
    }
}

// How many characters show a byte.
fn width(byte: u8) -> usize {
    match byte {
        b'"' | b'\\' => 2,
        b' '..=b'~' => 1,
        _ => 4,
    }
}

// A byte as XML text: as itself where it is printable ASCII that means nothing here, else by its name or its number.
fn write_byte(f: &mut fmt::Formatter<'_>, byte: u8) -> fmt::Result {
    match (escape(byte), byte) {
        (Some(name), _) => f.write_str(name),
        (None, b' '..=b'~') => f.write_char(char::from(byte)),
        _ => write!(f, "\\x{byte:02x}"),
    }
}

// What stands for a byte that means something to XML or in quotation marks.
fn escape(byte: u8) -> Option<&'static str> {
    match byte {
        b'&' => Some("&amp;"),
        b'<' => Some("&lt;"),
        b'>' => Some("&gt;"),
        b'"' => Some("\\\""),
        b'\\' => Some("\\\\"),
        _ => None,
    }
}
