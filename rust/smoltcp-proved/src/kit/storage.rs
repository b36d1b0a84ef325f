use core::fmt;
use core::ops::{Deref, DerefMut};

/// What a buffer stands on: a slice that is lent, or, with the feature `alloc`, a vector of its own.
pub enum Storage<'a, T> {
    /// A lent slice.
    Lent(&'a mut [T]),
    /// A vector.
    #[cfg(feature = "alloc")]
    Owned(alloc::vec::Vec<T>),
}

impl<T> Deref for Storage<'_, T> {
    type Target = [T];

    #[inline(always)]
    fn deref(&self) -> &[T] {
        match self {
            Storage::Lent(items) => items,
            #[cfg(feature = "alloc")]
            Storage::Owned(items) => items,
        }
    }
}

impl<T> DerefMut for Storage<'_, T> {
    #[inline(always)]
    fn deref_mut(&mut self) -> &mut [T] {
        match self {
            Storage::Lent(items) => items,
            #[cfg(feature = "alloc")]
            Storage::Owned(items) => items,
        }
    }
}

impl<T: fmt::Debug> fmt::Debug for Storage<'_, T> {
    fn fmt(&self, f: &mut fmt::Formatter<'_>) -> fmt::Result {
        fmt::Debug::fmt(&**self, f)
    }
}

impl<'a, T> From<&'a mut [T]> for Storage<'a, T> {
    fn from(items: &'a mut [T]) -> Storage<'a, T> {
        Storage::Lent(items)
    }
}

impl<'a, T, const N: usize> From<&'a mut [T; N]> for Storage<'a, T> {
    fn from(items: &'a mut [T; N]) -> Storage<'a, T> {
        Storage::Lent(items)
    }
}

#[cfg(feature = "alloc")]
impl<T> From<alloc::vec::Vec<T>> for Storage<'_, T> {
    fn from(items: alloc::vec::Vec<T>) -> Self {
        Storage::Owned(items)
    }
}

#[cfg(feature = "alloc")]
impl<T, const N: usize> From<[T; N]> for Storage<'_, T> {
    fn from(items: [T; N]) -> Self {
        Storage::Owned(items.into())
    }
}
