//! `std` under its names, where the toolchain's differs from Rust's: what allocates takes the allocator and answers a
//! `Result`, and input and output go by the runtime. What is not named here is Rust's own.

pub use std::*;

pub mod alloc;
pub mod boxed;
pub mod clone;
pub mod collections;
pub mod env;
pub mod hash;
pub mod iter;
pub mod marker;
pub mod prelude;
pub mod process;
pub mod rc;
pub mod rt;
pub mod slice;
pub mod string;
pub mod vec;

#[macro_export]
macro_rules! vec {
    (in $alloc:expr;) => {
        ::std::result::Result::<_, $crate::alloc::AllocError>::Ok($crate::vec::Vec::new($alloc))
    };
    (in $alloc:expr; $item:expr; $n:expr) => {
        $crate::vec::Vec::from_elem($alloc, $item, $n)
    };
    (in $alloc:expr; $($item:expr),+ $(,)?) => {
        $crate::vec::Vec::from_array($alloc, [$($item),+])
    };
}

#[macro_export]
macro_rules! format {
    (in $alloc:expr; $($rest:tt)*) => {
        $crate::string::formatted($alloc, ::std::format_args!($($rest)*))
    };
}

/// What is proved at this place, which costs nothing when the program runs.
#[macro_export]
macro_rules! prove {
    ($($rest:tt)*) => {};
}
