//! Room for a packet of an interface: of the heap, or in its place.
#[cfg(feature = "alloc")]
use alloc::vec::Vec;

#[cfg(not(feature = "alloc"))]
use crate::config::IFACE_MAX_MTU as LONGEST;

/// The MTU for a device of this one: where there is no heap, at most what the build fixes.
pub(super) fn fitting(mtu: usize) -> usize {
    #[cfg(not(feature = "alloc"))]
    return mtu.min(LONGEST);
    #[cfg(feature = "alloc")]
    mtu
}

/// So many bytes.
#[cfg(feature = "alloc")]
pub(super) struct Buffer(Vec<u8>);

#[cfg(feature = "alloc")]
impl Buffer {
    pub(super) fn new() -> Buffer {
        Buffer(Vec::new())
    }

    pub(super) fn fit(&mut self, len: usize) {
        if self.0.len() != len {
            self.0 = alloc::vec![0; len];
        }
    }

    pub(super) fn bytes(&mut self) -> &mut [u8] {
        &mut self.0
    }
}

/// So many bytes.
#[cfg(not(feature = "alloc"))]
pub(super) struct Buffer([u8; LONGEST], usize);

#[cfg(not(feature = "alloc"))]
impl Buffer {
    pub(super) fn new() -> Buffer {
        Buffer([0; LONGEST], 0)
    }

    pub(super) fn fit(&mut self, len: usize) {
        self.1 = len;
    }

    pub(super) fn bytes(&mut self) -> &mut [u8] {
        &mut self.0[..self.1]
    }
}
