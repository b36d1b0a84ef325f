//! Not log, but what `src/logged.rs` of the crate asks of it: `live/rust` compiles that file over it, as no registry is
//! asked. It keeps the lines.
use std::cell::RefCell;
use std::fmt;

thread_local! {
    static LINES: RefCell<Vec<String>> = const { RefCell::new(Vec::new()) };
}

/// The lines that were told since this was asked last.
pub fn taken() -> Vec<String> {
    LINES.take()
}

#[doc(hidden)]
pub fn line(text: fmt::Arguments<'_>) {
    LINES.with_borrow_mut(|lines| lines.push(text.to_string()));
}

/// A line of a text and values.
#[macro_export]
macro_rules! debug {
    ($($text:tt)*) => { $crate::line(format_args!($($text)*)) };
}
