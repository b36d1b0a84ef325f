// Made from crates/host_bounds/src/levels.rt by rust/translate: change it there.
//! Bounds of 16 places each, above those of the places.

use crate::kit::Vec;
use crate::kit::alloc::{AllocError, Global};

/// How many places have one bound above them.
pub const FAN_OUT: usize = 16;

/// So many bounds, all the least.
pub(crate) fn least_bounds(alloc: Global, count: usize) -> Result<Vec<i64>, AllocError> {
    let mut bounds = Vec::with_capacity(alloc, count)?;
    for _ in 0..count {
        bounds.push(i64::MIN)?;
    }
    Ok(bounds)
}

/// The least of these bounds.
pub(crate) fn least_between(bounds: &[i64], start: usize, end: usize) -> i64 {
    let mut least = i64::MAX;
    for bound in &bounds[start..end] {
        if *bound < least {
            least = *bound;
        }
    }
    least
}

/// The first of these bounds that is reached by now.
pub(crate) fn first_between(bounds: &[i64], start: usize, end: usize, now: i64) -> Option<usize> {
    for (i, bound) in bounds[start..end].iter().enumerate() {
        if *bound <= now {
            return Some(start + i);
        }
    }
    None
}

// The least bound of the 16 places that this one is among.
fn least_beside(bounds: &[i64], place: usize) -> i64 {
    let start = place - place % FAN_OUT;
    let end = bounds.len().min(start + FAN_OUT);
    least_between(bounds, start, end)
}

/// The bound of a place was changed: the one above it is made to bound it again. What that was.
pub(crate) fn mend(low: &[i64], high: &mut [i64], place: usize, was: i64) -> i64 {
    let above = place / FAN_OUT;
    let old = high[above];
    if low[place] < old {
        high[above] = low[place];
    } else if was == old {
        high[above] = least_beside(low, place);
    }
    old
}
