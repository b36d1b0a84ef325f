//! Not defmt, but what `src/logged.rs` of the crate asks of it, with the same names and types: `live/rust` compiles
//! that file over it, as no registry is asked. It writes text, where defmt writes numbers that a host makes text of.
use std::cell::RefCell;
use std::fmt;

/// A value that can be logged.
pub trait Format {
    fn format(&self, to: Formatter<'_>);
}

/// Where a value writes itself.
#[derive(Clone, Copy)]
pub struct Formatter<'a>(&'a RefCell<String>);

impl Formatter<'_> {
    #[doc(hidden)]
    pub fn put(self, text: fmt::Arguments<'_>) {
        self.0.borrow_mut().push_str(&text.to_string());
    }
}

/// What `Display` writes.
pub struct Display2Format<'a, T: fmt::Display + ?Sized>(pub &'a T);

/// What `Debug` writes.
pub struct Debug2Format<'a, T: fmt::Debug + ?Sized>(pub &'a T);

impl<T: fmt::Display + ?Sized> Format for Display2Format<'_, T> {
    fn format(&self, to: Formatter<'_>) {
        to.put(format_args!("{}", self.0));
    }
}

impl<T: fmt::Debug + ?Sized> Format for Debug2Format<'_, T> {
    fn format(&self, to: Formatter<'_>) {
        to.put(format_args!("{:?}", self.0));
    }
}

/// One value, which has `Format`, and no text around it.
#[macro_export]
macro_rules! write {
    ($to:expr, "{}", $value:expr) => {
        $crate::Format::format(&$value, $to)
    };
}

/// What a value writes.
pub fn text(value: &impl Format) -> String {
    let text = RefCell::new(String::new());
    value.format(Formatter(&text));
    text.into_inner()
}

thread_local! {
    static LINES: RefCell<Vec<String>> = const { RefCell::new(Vec::new()) };
}

/// The lines that were told since this was asked last.
pub fn taken() -> Vec<String> {
    LINES.take()
}

#[doc(hidden)]
pub fn line(pieces: &[String], text: &str) {
    let mut pieces = pieces.iter();
    let parts: Vec<&str> = text.split("{}").collect();
    let mut line = parts[0].to_string();
    for part in &parts[1..] {
        line += pieces.next().expect("a value for each place");
        line += part;
    }
    LINES.with_borrow_mut(|lines| lines.push(line));
}

/// A line of a text and values.
#[macro_export]
macro_rules! debug {
    ($text:literal $(, $value:expr)*) => {
        $crate::line(&[$($crate::text(&$value)),*], $text)
    };
}
