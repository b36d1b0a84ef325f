// Made from crates/bench_parts/src/lib.rt by rust/translate: change it there.
//! What the programs of the benchmark have in common: conversations, what they are made of, and a wire that is not
//! reliable.

pub mod clock;
pub mod conversation;
pub mod digest;
pub mod random;
pub mod wire;
pub mod work;
