//! What each file has without naming it.

pub use crate::boxed::{Box, BoxCalls as _};
pub use crate::clone::CloneCalls as _;
pub use crate::iter::IteratorCalls as _;
pub use crate::rt::{Alloc, AllocGlobal, HostRuntime};
pub use crate::slice::SliceCalls as _;
pub use crate::string::String;
pub use crate::vec::Vec;

/// What may be let go, which each type may.
pub trait Drop {}

impl<T: ?Sized> Drop for T {}
