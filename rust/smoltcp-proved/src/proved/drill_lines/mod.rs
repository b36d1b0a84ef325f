// Made from crates/drill_lines/src/lib.rt by rust/translate: change it there.
//! The lines of drills: scripts of sockets of every kind, of what is called and what comes to them.

pub mod advice;
pub mod fields;
mod forms;
mod names;
pub mod places;
pub mod reader;
pub mod request;
pub mod room;
mod shapes;
mod wrong;
