//! Clones.

use crate::alloc::{AllocError, has_room};
pub use std::clone::*;

/// `clone`, which the translation renames. The types of this crate that own memory have their own.
pub trait CloneCalls: Sized {
    fn clone_r(&self) -> Result<Self, AllocError>;
}

impl<T: Clone> CloneCalls for T {
    #[inline]
    fn clone_r(&self) -> Result<Self, AllocError> {
        if std::mem::needs_drop::<T>() && !has_room() {
            return Err(AllocError);
        }
        Ok(self.clone())
    }
}
