//! How the program ends.

pub use std::process::*;

/// What a function takes that may end the program.
pub trait Abort {}

impl Abort for crate::rt::HostRuntime {}
