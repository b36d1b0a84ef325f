// Made from crates/script_program/src/lib.rt by rust/translate: change it there.
//! What the programs that take a script share: the text of the script, why they failed, and what is wrong with a line.

pub mod advice;
pub mod fault;
pub mod input;
pub mod streams;
