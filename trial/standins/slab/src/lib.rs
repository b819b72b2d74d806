//! Stand-in for `slab`: keys count from 0, nothing is removed.

use std::ops::{Index, IndexMut};

pub struct Slab<T>(Vec<T>);

impl<T> Slab<T> {
    #[allow(clippy::new_without_default)]
    pub fn new() -> Self {
        Self(Vec::new())
    }

    pub fn insert(&mut self, value: T) -> usize {
        self.0.push(value);
        self.0.len() - 1
    }

    /// The values in the order of their keys.
    pub fn into_values(self) -> Vec<T> {
        self.0
    }
}

impl<T> Index<usize> for Slab<T> {
    type Output = T;

    fn index(&self, key: usize) -> &T {
        &self.0[key]
    }
}

impl<T> IndexMut<usize> for Slab<T> {
    fn index_mut(&mut self, key: usize) -> &mut T {
        &mut self.0[key]
    }
}
