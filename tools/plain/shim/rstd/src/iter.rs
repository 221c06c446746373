//! Iterators.

use crate::alloc::{AllocError, Global};
use crate::collections::BTreeSet;
use crate::string::String;
use crate::vec::Vec;
pub use std::iter::*;

/// `collect`, which the translation renames.
pub trait IteratorCalls: Iterator + Sized {
    fn collect_r<C: Collected<Self::Item>>(self, alloc: Global) -> Result<C, AllocError> {
        C::collected(alloc, self)
    }
}

impl<I: Iterator> IteratorCalls for I {}

/// What `collect` makes.
pub trait Collected<T>: Sized {
    fn collected<I: Iterator<Item = T>>(alloc: Global, items: I) -> Result<Self, AllocError>;
}

impl<T> Collected<T> for Vec<T> {
    fn collected<I: Iterator<Item = T>>(alloc: Global, items: I) -> Result<Self, AllocError> {
        let mut made = Vec::with_capacity(alloc, items.size_hint().0)?;
        made.extend(items)?;
        Ok(made)
    }
}

impl Collected<char> for String {
    fn collected<I: Iterator<Item = char>>(alloc: Global, items: I) -> Result<Self, AllocError> {
        let mut made = String::new(alloc);
        for c in items {
            made.push(c)?;
        }
        Ok(made)
    }
}

impl<K: Ord> Collected<K> for BTreeSet<K> {
    fn collected<I: Iterator<Item = K>>(alloc: Global, items: I) -> Result<Self, AllocError> {
        let mut made = BTreeSet::new(alloc);
        for key in items {
            made.insert(key)?;
        }
        Ok(made)
    }
}
