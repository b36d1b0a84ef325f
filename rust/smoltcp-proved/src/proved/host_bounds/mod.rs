// Made from crates/host_bounds/src/lib.rt by rust/translate: change it there.
//! Which of many places want to be asked by now, found without a look at each.

pub mod bounds;
pub mod first_mark;
pub mod levels;
pub mod marks;
pub mod times;

pub use bounds::Bounds;
pub use marks::Marks;
