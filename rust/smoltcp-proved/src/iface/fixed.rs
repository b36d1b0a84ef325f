//! A vector of at most so many items, with the calls of the crate `heapless`.
use core::ops::{Deref, DerefMut};

/// What stands where no item does.
pub trait Blank: Copy {
    /// Such an item.
    const BLANK: Self;
}

/// A vector of at most `N` items in its place, as that of `heapless`.
#[derive(Debug, Clone)]
pub struct FixedVec<T, const N: usize> {
    items: [T; N],
    len: usize,
}

impl<T: Blank, const N: usize> Default for FixedVec<T, N> {
    fn default() -> Self {
        FixedVec::new()
    }
}

impl<T: PartialEq, const N: usize> PartialEq for FixedVec<T, N> {
    fn eq(&self, other: &Self) -> bool {
        **self == **other
    }
}

impl<T: Eq, const N: usize> Eq for FixedVec<T, N> {}

impl<T: Blank, const N: usize> FixedVec<T, N> {
    /// No items.
    pub const fn new() -> Self {
        FixedVec { items: [T::BLANK; N], len: 0 }
    }

    /// These items, or an error where they are more than `N`.
    #[allow(clippy::result_unit_err)] // as that of heapless
    pub fn from_slice(items: &[T]) -> Result<Self, ()> {
        let mut vec = FixedVec::new();
        vec.extend_from_slice(items)?;
        Ok(vec)
    }

    /// Puts an item behind the others, or gives it back where `N` are there.
    pub fn push(&mut self, item: T) -> Result<(), T> {
        self.insert(self.len, item)
    }

    /// Takes the last item out.
    pub fn pop(&mut self) -> Option<T> {
        self.len = self.len.checked_sub(1)?;
        Some(self.items[self.len])
    }

    /// Puts an item to this place, or gives it back where `N` are there. Panics where the place is behind the end.
    pub fn insert(&mut self, place: usize, item: T) -> Result<(), T> {
        assert!(place <= self.len, "a place up to the end");
        if self.is_full() {
            return Err(item);
        }
        self.items.copy_within(place..self.len, place + 1);
        self.items[place] = item;
        self.len += 1;
        Ok(())
    }

    /// Takes the item at this place out. Panics where there is none.
    pub fn remove(&mut self, place: usize) -> T {
        let item = self[place];
        self.items.copy_within(place + 1..self.len, place);
        self.len -= 1;
        item
    }

    /// Takes the item at this place out, and puts the last one there. Panics where there is none.
    pub fn swap_remove(&mut self, place: usize) -> T {
        let item = self[place];
        self.len -= 1;
        self.items[place] = self.items[self.len];
        item
    }

    /// Leaves the first so many items.
    pub fn truncate(&mut self, len: usize) {
        self.len = self.len.min(len);
    }

    /// Takes all items out.
    pub fn clear(&mut self) {
        self.len = 0;
    }

    /// Leaves the items of which `f` says so.
    pub fn retain<F: FnMut(&T) -> bool>(&mut self, mut f: F) {
        let mut kept = 0;
        for place in 0..self.len {
            let item = self.items[place];
            if f(&item) {
                self.items[kept] = item;
                kept += 1;
            }
        }
        self.len = kept;
    }

    /// Puts copies of these items behind the others, or none and an error where there is no room for all.
    #[allow(clippy::result_unit_err)] // as that of heapless
    pub fn extend_from_slice(&mut self, items: &[T]) -> Result<(), ()> {
        let end = self.len + items.len();
        self.items.get_mut(self.len..end).ok_or(())?.copy_from_slice(items);
        self.len = end;
        Ok(())
    }

    /// Whether `N` items are there.
    pub fn is_full(&self) -> bool {
        self.len >= N
    }

    /// How many items there may be: `N`.
    pub const fn capacity(&self) -> usize {
        N
    }
}

/// Panics where there is no room.
impl<T: Blank, const N: usize> Extend<T> for FixedVec<T, N> {
    fn extend<I: IntoIterator<Item = T>>(&mut self, items: I) {
        for item in items {
            assert!(self.push(item).is_ok(), "no room for another item");
        }
    }
}

/// Panics where there is no room.
impl<T: Blank, const N: usize> FromIterator<T> for FixedVec<T, N> {
    fn from_iter<I: IntoIterator<Item = T>>(items: I) -> Self {
        let mut vec = FixedVec::new();
        vec.extend(items);
        vec
    }
}

impl<'a, T, const N: usize> IntoIterator for &'a FixedVec<T, N> {
    type Item = &'a T;
    type IntoIter = core::slice::Iter<'a, T>;

    fn into_iter(self) -> Self::IntoIter {
        self.iter()
    }
}

impl<'a, T, const N: usize> IntoIterator for &'a mut FixedVec<T, N> {
    type Item = &'a mut T;
    type IntoIter = core::slice::IterMut<'a, T>;

    fn into_iter(self) -> Self::IntoIter {
        self.iter_mut()
    }
}

impl<T, const N: usize> Deref for FixedVec<T, N> {
    type Target = [T];

    fn deref(&self) -> &[T] {
        &self.items[..self.len]
    }
}

impl<T, const N: usize> DerefMut for FixedVec<T, N> {
    fn deref_mut(&mut self) -> &mut [T] {
        &mut self.items[..self.len]
    }
}
