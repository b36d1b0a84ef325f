// Made from crates/script_chart/src/lib.rt by rust/translate: change it there.
//! Pictures of scripts in SVG: sequence charts, and sequence numbers over time.

mod arrow;
mod axis;
mod call;
mod chart;
pub mod drawing;
mod heard;
mod history;
mod label;
mod marks;
mod moments;
mod numbers;
pub mod page;
pub mod picture;
pub mod play;
mod sequence;
pub mod style;
pub mod text;
