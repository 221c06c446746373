//! Vectors.

use crate::alloc::{AllocError, AllocFailed, Global};
use std::fmt;
use std::ops::{Deref, DerefMut, Index, IndexMut, RangeBounds};
use std::slice::{Iter, IterMut, SliceIndex};
pub use std::vec::{Drain, IntoIter};

#[derive(Clone, PartialEq, Eq, PartialOrd, Ord, Hash)]
#[repr(transparent)]
pub struct Vec<T>(pub(crate) std::vec::Vec<T>);

// What allocates nothing is as in Rust's std.
impl<T> Vec<T> {
    #[inline]
    pub fn new(_: Global) -> Vec<T> {
        Vec(std::vec::Vec::new())
    }

    #[inline]
    pub fn allocator(&self) -> &Global {
        &Global
    }

    #[inline]
    pub fn as_slice(&self) -> &[T] {
        &self.0
    }

    #[inline]
    pub fn as_mut_slice(&mut self) -> &mut [T] {
        &mut self.0
    }

    #[inline]
    pub fn len(&self) -> usize {
        self.0.len()
    }

    #[inline]
    pub fn is_empty(&self) -> bool {
        self.0.is_empty()
    }

    #[inline]
    pub fn capacity(&self) -> usize {
        self.0.capacity()
    }

    #[inline]
    pub fn push_reserved(&mut self, value: T) {
        self.0.push(value);
    }

    #[inline]
    pub fn pop(&mut self) -> Option<T> {
        self.0.pop()
    }

    #[inline]
    pub fn clear(&mut self) {
        self.0.clear();
    }

    #[inline]
    pub fn truncate(&mut self, n: usize) {
        self.0.truncate(n);
    }

    #[inline]
    pub fn remove(&mut self, at: usize) -> T {
        self.0.remove(at)
    }

    #[inline]
    pub fn swap_remove(&mut self, at: usize) -> T {
        self.0.swap_remove(at)
    }

    pub fn drain<R: RangeBounds<usize>>(&mut self, range: R) -> Drain<'_, T> {
        self.0.drain(range)
    }

    pub fn retain<F: FnMut(&T) -> bool>(&mut self, keeps: F) {
        self.0.retain(keeps);
    }

    pub fn dedup(&mut self)
    where
        T: PartialEq,
    {
        self.0.dedup();
    }
}

// What allocates may fail.
impl<T> Vec<T> {
    #[inline]
    pub fn with_capacity(_: Global, n: usize) -> Result<Vec<T>, AllocError> {
        let mut made = std::vec::Vec::new();
        made.try_reserve_exact(n)?;
        Ok(Vec(made))
    }

    pub fn from_array<const N: usize>(alloc: Global, items: [T; N]) -> Result<Vec<T>, AllocFailed<[T; N]>> {
        let Ok(mut made) = Vec::with_capacity(alloc, N) else {
            return Err(AllocFailed { value: items });
        };
        made.0.extend(items);
        Ok(made)
    }

    pub fn from_slice(alloc: Global, items: &[T]) -> Result<Vec<T>, AllocError>
    where
        T: Copy,
    {
        let mut made = Vec::with_capacity(alloc, items.len())?;
        made.0.extend_from_slice(items);
        Ok(made)
    }

    pub fn from_elem(alloc: Global, item: T, n: usize) -> Result<Vec<T>, AllocError>
    where
        T: Clone,
    {
        let mut made = Vec::with_capacity(alloc, n)?;
        made.0.resize(n, item);
        Ok(made)
    }

    pub fn clone_r(&self) -> Result<Vec<T>, AllocError>
    where
        T: Clone,
    {
        let mut made = Vec::with_capacity(Global, self.len())?;
        made.0.extend_from_slice(&self.0);
        Ok(made)
    }

    #[inline]
    pub fn reserve(&mut self, more: usize) -> Result<(), AllocError> {
        Ok(self.0.try_reserve(more)?)
    }

    pub fn reserve_exact(&mut self, more: usize) -> Result<(), AllocError> {
        Ok(self.0.try_reserve_exact(more)?)
    }

    #[inline]
    pub fn push(&mut self, value: T) -> Result<(), AllocFailed<T>> {
        if self.0.len() == self.0.capacity() && self.0.try_reserve(1).is_err() {
            return Err(AllocFailed { value });
        }
        self.0.push(value);
        Ok(())
    }

    pub fn insert(&mut self, at: usize, value: T) -> Result<(), AllocFailed<T>> {
        if self.0.try_reserve(1).is_err() {
            return Err(AllocFailed { value });
        }
        self.0.insert(at, value);
        Ok(())
    }

    pub fn append(&mut self, other: &mut Vec<T>) -> Result<(), AllocError> {
        self.0.try_reserve(other.0.len())?;
        self.0.append(&mut other.0);
        Ok(())
    }

    #[inline]
    pub fn extend_from_slice(&mut self, items: &[T]) -> Result<(), AllocError>
    where
        T: Copy,
    {
        self.0.try_reserve(items.len())?;
        self.0.extend_from_slice(items);
        Ok(())
    }

    pub fn extend<I: IntoIterator<Item = T>>(&mut self, items: I) -> Result<(), AllocError> {
        for item in items {
            self.push(item)?;
        }
        Ok(())
    }

    pub fn resize(&mut self, n: usize, value: T) -> Result<(), AllocError>
    where
        T: Clone,
    {
        self.0.try_reserve(n.saturating_sub(self.0.len()))?;
        self.0.resize(n, value);
        Ok(())
    }
}

impl<T> Deref for Vec<T> {
    type Target = [T];

    #[inline(always)]
    fn deref(&self) -> &[T] {
        &self.0
    }
}

impl<T> DerefMut for Vec<T> {
    #[inline(always)]
    fn deref_mut(&mut self) -> &mut [T] {
        &mut self.0
    }
}

impl<T, I: SliceIndex<[T]>> Index<I> for Vec<T> {
    type Output = I::Output;

    #[inline(always)]
    fn index(&self, index: I) -> &I::Output {
        &self.0[index]
    }
}

impl<T, I: SliceIndex<[T]>> IndexMut<I> for Vec<T> {
    #[inline(always)]
    fn index_mut(&mut self, index: I) -> &mut I::Output {
        &mut self.0[index]
    }
}

impl<T> std::borrow::Borrow<[T]> for Vec<T> {
    fn borrow(&self) -> &[T] {
        &self.0
    }
}

impl<T> AsRef<[T]> for Vec<T> {
    fn as_ref(&self) -> &[T] {
        &self.0
    }
}

impl<T: fmt::Debug> fmt::Debug for Vec<T> {
    fn fmt(&self, f: &mut fmt::Formatter<'_>) -> fmt::Result {
        self.0.fmt(f)
    }
}

impl<T> IntoIterator for Vec<T> {
    type Item = T;
    type IntoIter = IntoIter<T>;

    #[inline]
    fn into_iter(self) -> IntoIter<T> {
        self.0.into_iter()
    }
}

impl<'a, T> IntoIterator for &'a Vec<T> {
    type Item = &'a T;
    type IntoIter = Iter<'a, T>;

    #[inline]
    fn into_iter(self) -> Iter<'a, T> {
        self.0.iter()
    }
}

impl<'a, T> IntoIterator for &'a mut Vec<T> {
    type Item = &'a mut T;
    type IntoIter = IterMut<'a, T>;

    #[inline]
    fn into_iter(self) -> IterMut<'a, T> {
        self.0.iter_mut()
    }
}
