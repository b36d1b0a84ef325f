use crate::kit::alloc::{AllocError, AllocFailed, Global};
use core::ops::{Deref, DerefMut};

/// Of how many keys an index knows where they stood last.
pub(crate) const KNOWN: usize = 256;

/// What a vector holds: anything, where there is a heap.
pub trait Kept: Sized {}

impl<T> Kept for T {}

/// Words of marks.
pub type Words = Vec<u64>;

/// Bounds of blocks.
pub type Blocks = Vec<i64>;

/// These bounds, which are of blocks.
pub(crate) fn of_blocks(bounds: Result<Vec<i64>, AllocError>) -> Result<Blocks, AllocError> {
    bounds
}

/// A vector each call of which that needs memory says where there is none, and then changes nothing.
#[derive(Debug, Clone, PartialEq, Eq, PartialOrd, Ord, Hash)]
pub struct Vec<T>(alloc::vec::Vec<T>);

impl<T> Vec<T> {
    /// A vector without items, which takes no memory.
    pub const fn new(_: Global) -> Vec<T> {
        Vec(alloc::vec::Vec::new())
    }

    /// A vector without items that has room for so many.
    pub fn with_capacity(_: Global, count: usize) -> Result<Vec<T>, AllocError> {
        let mut items = alloc::vec::Vec::new();
        items.try_reserve_exact(count).map_err(|_| AllocError)?;
        Ok(Vec(items))
    }

    /// A vector of an array's items.
    pub fn from_array<const N: usize>(alloc: Global, items: [T; N]) -> Result<Vec<T>, AllocError> {
        let mut vector = Vec::with_capacity(alloc, N)?;
        vector.0.extend(items);
        Ok(vector)
    }

    fn room_for(&mut self, count: usize) -> Result<(), AllocError> {
        self.0.try_reserve(count).map_err(|_| AllocError)
    }

    /// Puts an item behind the others.
    pub fn push(&mut self, item: T) -> Result<(), AllocFailed<T>> {
        // almost always there is room, and a look at it is quicker than to ask for more
        if self.0.len() == self.0.capacity() && self.room_for(1).is_err() {
            return Err(AllocFailed { value: item });
        }
        self.0.push(item);
        Ok(())
    }

    /// Puts an item behind the others, where there is room for it.
    pub fn push_reserved(&mut self, item: T) {
        self.0.push(item);
    }

    /// Puts an item before the one at this place.
    pub fn insert(&mut self, place: usize, item: T) -> Result<(), AllocFailed<T>> {
        if self.room_for(1).is_err() {
            return Err(AllocFailed { value: item });
        }
        self.0.insert(place, item);
        Ok(())
    }

    /// Has room for so many more items.
    pub fn reserve(&mut self, count: usize) -> Result<(), AllocError> {
        self.room_for(count)
    }

    /// Gives back the memory beyond the items.
    pub fn shrink_to_fit(&mut self) {
        self.0.shrink_to_fit();
    }

    /// Takes the item at this place out.
    pub fn remove(&mut self, place: usize) -> T {
        self.0.remove(place)
    }

    /// Takes the last item out.
    pub fn pop(&mut self) -> Option<T> {
        self.0.pop()
    }

    /// Takes all items out.
    pub fn clear(&mut self) {
        self.0.clear();
    }

    /// Takes out all items but the first so many.
    pub fn truncate(&mut self, count: usize) {
        self.0.truncate(count);
    }

    /// How many items there is room for.
    pub fn capacity(&self) -> usize {
        self.0.capacity()
    }

    /// The items.
    pub fn as_slice(&self) -> &[T] {
        &self.0
    }

    /// The items, to be written.
    pub fn as_mut_slice(&mut self) -> &mut [T] {
        &mut self.0
    }
}

impl<T: Clone> Vec<T> {
    /// One item so many times.
    pub fn filled(alloc: Global, item: T, count: usize) -> Result<Vec<T>, AllocError> {
        let mut vector = Vec::with_capacity(alloc, count)?;
        vector.0.resize(count, item);
        Ok(vector)
    }

    /// A copy of these items.
    pub fn from_slice(alloc: Global, items: &[T]) -> Result<Vec<T>, AllocError> {
        let mut vector = Vec::with_capacity(alloc, items.len())?;
        vector.0.extend_from_slice(items);
        Ok(vector)
    }

    /// Puts a copy of these items behind the others.
    pub fn extend_from_slice(&mut self, items: &[T]) -> Result<(), AllocError> {
        self.room_for(items.len())?;
        self.0.extend_from_slice(items);
        Ok(())
    }

    /// Has so many items: takes the last ones out, or puts copies of this one behind the others.
    pub fn resize(&mut self, count: usize, item: T) -> Result<(), AllocError> {
        self.room_for(count.saturating_sub(self.0.len()))?;
        self.0.resize(count, item);
        Ok(())
    }
}

impl<T> Deref for Vec<T> {
    type Target = [T];

    fn deref(&self) -> &[T] {
        &self.0
    }
}

impl<T> DerefMut for Vec<T> {
    fn deref_mut(&mut self) -> &mut [T] {
        &mut self.0
    }
}

impl<T> IntoIterator for Vec<T> {
    type Item = T;
    type IntoIter = alloc::vec::IntoIter<T>;

    fn into_iter(self) -> Self::IntoIter {
        self.0.into_iter()
    }
}

impl<'a, T> IntoIterator for &'a Vec<T> {
    type Item = &'a T;
    type IntoIter = core::slice::Iter<'a, T>;

    fn into_iter(self) -> Self::IntoIter {
        self.0.iter()
    }
}

impl<'a, T> IntoIterator for &'a mut Vec<T> {
    type Item = &'a mut T;
    type IntoIter = core::slice::IterMut<'a, T>;

    fn into_iter(self) -> Self::IntoIter {
        self.0.iter_mut()
    }
}
