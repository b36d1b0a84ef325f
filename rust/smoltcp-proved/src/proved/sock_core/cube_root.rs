// Made from crates/sock_core/src/cube_root.rt by rust/translate: change it there.
//! Cube roots.

// The cube of 2^21 is 2^63.
const ABOVE_ALL: u64 = 1 << 21;

// Of a number whose cube fits.
pub(crate) fn cube(n: u64) -> u64 {
    n * n * n
}

// A number between two that are not next to each other.
fn between(low: u64, high: u64) -> u64 {
    low + (high - low) / 2
}

/// The greatest number whose cube is at most `x`, found in 21 steps.
pub(crate) fn cube_root(x: u64) -> u64 {
    let mut low = 0;
    let mut high = ABOVE_ALL;
    while low + 1 < high {
        let middle = between(low, high);
        if cube(middle) <= x {
            low = middle;
        } else {
            high = middle;
        }
    }
    low
}
