// Made from crates/sock_pair/src/script/lanes.rt by rust/translate: change it there.
//! Sixteen bytes of a text at a time: where a byte stands first, and whether all are printable.

use crate::kit::simd::prelude::*;

/// How many bytes are looked at together.
pub const LANES: usize = 16;

/// How many of the sixteen bytes from `at` on stand before the first `stop`; sixteen where none is one.
#[inline(always)]
pub fn lanes_before(bytes: &[u8], at: usize, stop: u8) -> usize {
    let stops = u8x16::from_slice(&bytes[at..]).simd_eq(u8x16::splat(stop)).to_bitmask();
    if stops == 0 { LANES } else { stops.trailing_zeros() as usize }
}

/// Whether the sixteen bytes from `at` on are all from 33 to 126.
#[inline(always)]
pub fn lanes_are_text(bytes: &[u8], at: usize) -> bool {
    let lanes = u8x16::from_slice(&bytes[at..]);
    let others = lanes.simd_lt(u8x16::splat(33)) | lanes.simd_gt(u8x16::splat(126));
    others.to_bitmask() == 0
}
