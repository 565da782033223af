//! A list of limited length, stored in itself.

use core::ops::{Deref, DerefMut};

/// At most `N` items; read as a slice.
#[derive(Debug)]
pub(crate) struct List<T, const N: usize> {
    items: [T; N],
    len: usize,
}

impl<T: Copy, const N: usize> List<T, N> {
    /// The empty list; `unused` fills its unused end.
    pub(crate) fn new(unused: T) -> Self {
        List {
            items: [unused; N],
            len: 0,
        }
    }

    /// Adds an item at the end, or gives `None` when the list is full.
    #[must_use]
    pub(crate) fn push(&mut self, item: T) -> Option<()> {
        *self.items.get_mut(self.len)? = item;
        self.len += 1;
        Some(())
    }
}

impl<T, const N: usize> Deref for List<T, N> {
    type Target = [T];

    fn deref(&self) -> &[T] {
        &self.items[..self.len]
    }
}

impl<T, const N: usize> DerefMut for List<T, N> {
    fn deref_mut(&mut self) -> &mut [T] {
        &mut self.items[..self.len]
    }
}
