//! Slices.

use crate::alloc::{AllocError, Global};
use crate::vec::Vec;
pub use std::slice::*;

/// The calls of a slice that allocate, which the translation renames.
pub trait SliceCalls<T> {
    fn to_vec_r(&self, alloc: Global) -> Result<Vec<T>, AllocError>
    where
        T: Copy;
}

impl<T> SliceCalls<T> for [T] {
    fn to_vec_r(&self, alloc: Global) -> Result<Vec<T>, AllocError>
    where
        T: Copy,
    {
        Vec::from_slice(alloc, self)
    }
}
