use crate::kit::alloc::Global;
use core::fmt::Display;
use std::io::{Result, Write, stderr, stdin, stdout};

/// What a program is handed: its allocator and its streams.
#[derive(Debug, Clone, Copy, Default)]
pub struct HostRuntime;

impl HostRuntime {
    /// The allocator.
    pub fn alloc(&self) -> Global {
        Global
    }

    /// Standard input.
    pub fn reader(&self) -> std::io::Stdin {
        stdin()
    }

    /// Prints a text.
    pub fn print(&self, text: &str) -> Result<()> {
        stdout().write_all(text.as_bytes())
    }

    /// Prints a line.
    pub fn println(&self, text: impl Display) -> Result<()> {
        writeln!(stdout(), "{text}")
    }

    /// Prints a text on standard error.
    pub fn eprint(&self, text: &str) -> Result<()> {
        stderr().write_all(text.as_bytes())
    }

    /// Prints a line on standard error.
    pub fn eprintln(&self, text: impl Display) -> Result<()> {
        writeln!(stderr(), "{text}")
    }
}
