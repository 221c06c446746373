//! Strings.

use crate::alloc::{AllocError, AllocFailed, Global};
use crate::vec::Vec;
use std::fmt;
use std::ops::{Deref, DerefMut};
use std::string::FromUtf8Error;

#[derive(Clone, PartialEq, Eq, PartialOrd, Ord, Hash)]
pub struct String(std::string::String);

impl String {
    pub fn new(_: Global) -> String {
        String(std::string::String::new())
    }

    pub fn with_capacity(alloc: Global, n: usize) -> Result<String, AllocError> {
        let mut made = String::new(alloc);
        made.reserve(n)?;
        Ok(made)
    }

    pub fn from_str(alloc: Global, text: &str) -> Result<String, AllocError> {
        let mut made = String::new(alloc);
        made.0.try_reserve_exact(text.len())?;
        made.0.push_str(text);
        Ok(made)
    }

    pub fn from_utf8(bytes: Vec<u8>) -> Result<String, FromUtf8Error> {
        Ok(String(std::string::String::from_utf8(bytes.0)?))
    }

    pub fn clone_r(&self) -> Result<String, AllocError> {
        String::from_str(Global, self)
    }

    pub fn allocator(&self) -> &Global {
        &Global
    }

    pub fn as_str(&self) -> &str {
        &self.0
    }

    pub fn into_bytes(self) -> Vec<u8> {
        Vec(self.0.into_bytes())
    }

    pub fn clear(&mut self) {
        self.0.clear();
    }

    pub fn truncate(&mut self, n: usize) {
        self.0.truncate(n);
    }

    pub fn pop(&mut self) -> Option<char> {
        self.0.pop()
    }

    pub fn reserve(&mut self, more: usize) -> Result<(), AllocError> {
        Ok(self.0.try_reserve(more)?)
    }

    pub fn push(&mut self, c: char) -> Result<(), AllocFailed<char>> {
        if self.0.try_reserve(c.len_utf8()).is_err() {
            return Err(AllocFailed { value: c });
        }
        self.0.push(c);
        Ok(())
    }

    pub fn push_str(&mut self, text: &str) -> Result<(), AllocError> {
        self.0.try_reserve(text.len())?;
        self.0.push_str(text);
        Ok(())
    }
}

/// What `format!` makes.
pub fn formatted(alloc: Global, text: fmt::Arguments<'_>) -> Result<String, AllocError> {
    let mut made = String::new(alloc);
    fmt::Write::write_fmt(&mut made, text).map_err(|_| AllocError)?;
    Ok(made)
}

impl Deref for String {
    type Target = str;

    #[inline(always)]
    fn deref(&self) -> &str {
        &self.0
    }
}

impl DerefMut for String {
    #[inline(always)]
    fn deref_mut(&mut self) -> &mut str {
        &mut self.0
    }
}

impl std::borrow::Borrow<str> for String {
    fn borrow(&self) -> &str {
        &self.0
    }
}

impl AsRef<str> for String {
    fn as_ref(&self) -> &str {
        &self.0
    }
}

impl fmt::Debug for String {
    fn fmt(&self, f: &mut fmt::Formatter<'_>) -> fmt::Result {
        self.0.fmt(f)
    }
}

impl fmt::Display for String {
    fn fmt(&self, f: &mut fmt::Formatter<'_>) -> fmt::Result {
        self.0.fmt(f)
    }
}

impl fmt::Write for String {
    fn write_str(&mut self, text: &str) -> fmt::Result {
        self.push_str(text).map_err(|_| fmt::Error)
    }
}
