//! Boxes.

use crate::alloc::{AllocFailed, Global, has_room};
pub use std::boxed::*;

/// `Box::new` and `Box::into_inner`, which the translation renames.
pub trait BoxCalls<T>: Sized {
    fn new_r(alloc: Global, value: T) -> Result<Self, AllocFailed<T>>;
    fn into_inner_r(self) -> T;
}

impl<T> BoxCalls<T> for Box<T> {
    #[inline]
    fn new_r(_: Global, value: T) -> Result<Self, AllocFailed<T>> {
        if !has_room() {
            return Err(AllocFailed { value });
        }
        Ok(Box::new(value))
    }

    #[inline]
    fn into_inner_r(self) -> T {
        *self
    }
}
