//! What is shared, by counts.

use crate::alloc::{AllocError, AllocFailed, Global, has_room};
use crate::string::String;
use std::fmt;
use std::ops::Deref;

#[derive(PartialEq, Eq, PartialOrd, Ord, Hash)]
pub struct Rc<T>(std::rc::Rc<T>);

impl<T> Rc<T> {
    #[inline]
    pub fn new(_: Global, value: T) -> Result<Rc<T>, AllocFailed<T>> {
        if !has_room() {
            return Err(AllocFailed { value });
        }
        Ok(Rc(std::rc::Rc::new(value)))
    }

    #[inline]
    pub fn clone_r(&self) -> Result<Self, AllocError> {
        Ok(self.clone())
    }

    pub fn ptr_eq(a: &Rc<T>, b: &Rc<T>) -> bool {
        std::rc::Rc::ptr_eq(&a.0, &b.0)
    }

    pub fn get_mut(this: &mut Rc<T>) -> Option<&mut T> {
        std::rc::Rc::get_mut(&mut this.0)
    }

    pub fn try_unwrap(this: Rc<T>) -> Result<T, Rc<T>> {
        std::rc::Rc::try_unwrap(this.0).map_err(Rc)
    }
}

impl<T> Clone for Rc<T> {
    #[inline]
    fn clone(&self) -> Self {
        Rc(self.0.clone())
    }
}

impl<T> Deref for Rc<T> {
    type Target = T;

    #[inline(always)]
    fn deref(&self) -> &T {
        &self.0
    }
}

impl<T: fmt::Debug> fmt::Debug for Rc<T> {
    fn fmt(&self, f: &mut fmt::Formatter<'_>) -> fmt::Result {
        self.0.fmt(f)
    }
}

#[derive(Clone, PartialEq, Eq, PartialOrd, Ord, Hash)]
pub struct RcStr(std::rc::Rc<str>);

/// The longest text that the allocator's reserve has room for, with much to spare.
const SHORT: usize = 1 << 12;

impl RcStr {
    pub fn from_str(_: Global, text: &str) -> Result<RcStr, AllocError> {
        // Rust's std has no way to ask for it that may fail; a vector of its size has.
        if text.len() > SHORT {
            std::vec::Vec::<u8>::new().try_reserve_exact(text.len() + 64)?;
        }
        if !has_room() {
            return Err(AllocError);
        }
        Ok(RcStr(text.into()))
    }

    pub fn from_string(text: String) -> Result<RcStr, AllocError> {
        RcStr::from_str(Global, &text)
    }

    #[inline]
    pub fn clone_r(&self) -> Result<Self, AllocError> {
        Ok(self.clone())
    }

    #[inline]
    pub fn as_str(&self) -> &str {
        &self.0
    }
}

impl Deref for RcStr {
    type Target = str;

    #[inline(always)]
    fn deref(&self) -> &str {
        &self.0
    }
}

impl std::borrow::Borrow<str> for RcStr {
    fn borrow(&self) -> &str {
        &self.0
    }
}

impl fmt::Debug for RcStr {
    fn fmt(&self, f: &mut fmt::Formatter<'_>) -> fmt::Result {
        self.0.fmt(f)
    }
}

impl fmt::Display for RcStr {
    fn fmt(&self, f: &mut fmt::Formatter<'_>) -> fmt::Result {
        self.0.fmt(f)
    }
}
