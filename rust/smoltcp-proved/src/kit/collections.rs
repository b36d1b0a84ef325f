//! A map that is given an allocator.
use crate::kit::alloc::{AllocError, Global};

/// A map in the order of its keys.
#[derive(Debug, Clone, PartialEq, Eq)]
pub struct BTreeMap<K, V>(alloc::collections::BTreeMap<K, V>);

impl<K: Ord, V> BTreeMap<K, V> {
    /// An empty map, which takes no memory.
    pub const fn new(_: Global) -> BTreeMap<K, V> {
        BTreeMap(alloc::collections::BTreeMap::new())
    }

    /// Puts a value under a key, and gives the one back that was there. Without memory the program ends, as Rust's map
    /// has no other way.
    pub fn insert(&mut self, key: K, value: V) -> Result<Option<V>, AllocError> {
        Ok(self.0.insert(key, value))
    }

    /// The first key, and its value.
    pub fn first_key_value(&self) -> Option<(&K, &V)> {
        self.0.first_key_value()
    }

    /// Takes the first key out, with its value.
    pub fn pop_first(&mut self) -> Option<(K, V)> {
        self.0.pop_first()
    }
}
