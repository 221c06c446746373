//! The words of the command line.

use crate::rt::{Alloc, HostRuntime};
use crate::string::String;
use crate::vec::{IntoIter, Vec};
pub use std::env::*;
use std::io;

/// What a function takes that reads them.
pub trait Env {}

impl Env for HostRuntime {}

/// Each of the words. One that is no text is an error.
pub fn args<R: Env + Alloc>(rt: &R) -> io::Result<IntoIter<String>> {
    let mut words = Vec::new(rt.alloc());
    for word in std::env::args_os() {
        let Some(text) = word.to_str() else {
            return Err(io::ErrorKind::InvalidData.into());
        };
        words.push(String::from_str(rt.alloc(), text)?)?;
    }
    Ok(words.into_iter())
}
