use crate::kit::alloc::{AllocError, Global};
use core::fmt::{self, Write};
use core::ops::Deref;

/// A text each call of which that needs memory says where there is none.
#[derive(Clone, PartialEq, Eq, PartialOrd, Ord, Hash)]
pub struct String(alloc::string::String);

impl String {
    /// An empty text, which takes no memory.
    pub const fn new(_: Global) -> String {
        String(alloc::string::String::new())
    }

    /// The text of these values.
    pub fn written(alloc: Global, text: fmt::Arguments<'_>) -> Result<String, AllocError> {
        let mut string = String::new(alloc);
        string.write_fmt(text)?;
        Ok(string)
    }

    /// These bytes as a text, with U+FFFD in place of what is not UTF-8.
    pub fn from_utf8_lossy(alloc: Global, bytes: &[u8]) -> Result<String, AllocError> {
        let mut string = String::new(alloc);
        for chunk in bytes.utf8_chunks() {
            string.push_str(chunk.valid())?;
            if !chunk.invalid().is_empty() {
                string.push_str("\u{fffd}")?;
            }
        }
        Ok(string)
    }

    /// Puts a text behind this one.
    pub fn push_str(&mut self, text: &str) -> Result<(), AllocError> {
        self.0.try_reserve(text.len()).map_err(|_| AllocError)?;
        self.0.push_str(text);
        Ok(())
    }

    /// What `write!` calls: an error only where there is no memory.
    pub fn write_fmt(&mut self, text: fmt::Arguments<'_>) -> Result<(), AllocError> {
        fmt::write(self, text).map_err(|_| AllocError)
    }

    /// Takes the whole text out.
    pub fn clear(&mut self) {
        self.0.clear();
    }

    /// The text.
    pub fn as_str(&self) -> &str {
        &self.0
    }
}

impl From<alloc::string::String> for String {
    fn from(text: alloc::string::String) -> String {
        String(text)
    }
}

impl Write for String {
    fn write_str(&mut self, text: &str) -> fmt::Result {
        self.push_str(text).map_err(|_| fmt::Error)
    }
}

impl Deref for String {
    type Target = str;

    fn deref(&self) -> &str {
        &self.0
    }
}

impl fmt::Display for String {
    fn fmt(&self, f: &mut fmt::Formatter<'_>) -> fmt::Result {
        fmt::Display::fmt(self.as_str(), f)
    }
}

impl fmt::Debug for String {
    fn fmt(&self, f: &mut fmt::Formatter<'_>) -> fmt::Result {
        fmt::Debug::fmt(self.as_str(), f)
    }
}
