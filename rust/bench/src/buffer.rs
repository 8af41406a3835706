//! Buffers that begin with a page, so that no implementation gets a better place than another.

use std::ops::{Deref, DerefMut};

const PAGE: usize = 4096;

/// A buffer of bytes or words.
pub struct Buffer<T> {
    items: Vec<T>,
    begin: usize,
    len: usize,
}

impl<T: Copy> Buffer<T> {
    /// A buffer that holds `item` `len` times.
    pub fn filled(item: T, len: usize) -> Self {
        let items = vec![item; len + PAGE / size_of::<T>()];
        let begin = items.as_ptr().align_offset(PAGE);
        Self { items, begin, len }
    }
}

impl<T> Deref for Buffer<T> {
    type Target = [T];

    fn deref(&self) -> &[T] {
        &self.items[self.begin..self.begin + self.len]
    }
}

impl<T> DerefMut for Buffer<T> {
    fn deref_mut(&mut self) -> &mut [T] {
        &mut self.items[self.begin..self.begin + self.len]
    }
}
