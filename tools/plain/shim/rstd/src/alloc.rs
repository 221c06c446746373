//! The allocator, and its errors.
//!
//! Rust's collections end the program where memory is wanting, but for the calls that may fail. So the allocator keeps a block in
//! reserve, which it gives back to the system where that has no more: what was under way ends well, and the next call finds
//! the reserve gone and fails.

pub use std::alloc::*;
use std::cell::UnsafeCell;
use std::collections::TryReserveError;
use std::fmt;
use std::io;
use std::ptr::null_mut;
use std::sync::atomic::{AtomicBool, Ordering::Relaxed};

/// The allocator that all takes memory from.
#[derive(Clone, Copy, Debug, Default, PartialEq, Eq)]
pub struct Global;

/// Memory is wanting.
#[derive(Clone, Copy, Debug, PartialEq, Eq)]
pub struct AllocError;

/// The same, with what there was no room for.
pub struct AllocFailed<T> {
    pub value: T,
}

impl<T> fmt::Debug for AllocFailed<T> {
    fn fmt(&self, f: &mut fmt::Formatter<'_>) -> fmt::Result {
        f.write_str("AllocFailed { .. }")
    }
}

impl<T> From<AllocFailed<T>> for AllocError {
    fn from(_: AllocFailed<T>) -> Self {
        AllocError
    }
}

impl From<TryReserveError> for AllocError {
    fn from(_: TryReserveError) -> Self {
        AllocError
    }
}

impl From<AllocError> for io::Error {
    fn from(_: AllocError) -> Self {
        io::ErrorKind::OutOfMemory.into()
    }
}

impl<T> From<AllocFailed<T>> for io::Error {
    fn from(_: AllocFailed<T>) -> Self {
        io::ErrorKind::OutOfMemory.into()
    }
}

/// Whether there is memory for a call of Rust's std that ends the program without.
#[inline]
pub fn has_room() -> bool {
    !HEAP.is_spent.load(Relaxed) || HEAP.take_reserve()
}

/// Takes the reserve for the first time.
pub(crate) fn start() {
    HEAP.take_reserve();
}

const RESERVE: usize = 1 << 16;

struct Heap {
    reserve: UnsafeCell<*mut u8>,
    is_spent: AtomicBool,
}

// The program has one thread.
unsafe impl Sync for Heap {}

#[global_allocator]
static HEAP: Heap = Heap { reserve: UnsafeCell::new(null_mut()), is_spent: AtomicBool::new(false) };

impl Heap {
    fn reserve_layout() -> Layout {
        Layout::from_size_align(RESERVE, 16).unwrap()
    }

    /// Takes the reserve from the system where it is gone, and says whether it is there.
    fn take_reserve(&self) -> bool {
        unsafe {
            let reserve = self.reserve.get();
            if (*reserve).is_null() {
                *reserve = System.alloc(Self::reserve_layout());
            }
            self.is_spent.store((*reserve).is_null(), Relaxed);
            !(*reserve).is_null()
        }
    }

    /// Gives the reserve back, and asks again.
    #[cold]
    fn ask_again(&self, ask: impl Fn() -> *mut u8) -> *mut u8 {
        unsafe {
            let reserve = std::mem::replace(&mut *self.reserve.get(), null_mut());
            if reserve.is_null() {
                return null_mut();
            }
            System.dealloc(reserve, Self::reserve_layout());
            let given = ask();
            self.is_spent.store(true, Relaxed);
            if given.is_null() {
                self.take_reserve();
            }
            given
        }
    }
}

unsafe impl GlobalAlloc for Heap {
    #[inline]
    unsafe fn alloc(&self, layout: Layout) -> *mut u8 {
        let given = unsafe { System.alloc(layout) };
        if given.is_null() { self.ask_again(|| unsafe { System.alloc(layout) }) } else { given }
    }

    #[inline]
    unsafe fn dealloc(&self, at: *mut u8, layout: Layout) {
        unsafe { System.dealloc(at, layout) }
    }

    #[inline]
    unsafe fn realloc(&self, at: *mut u8, layout: Layout, size: usize) -> *mut u8 {
        let given = unsafe { System.realloc(at, layout, size) };
        if given.is_null() { self.ask_again(|| unsafe { System.realloc(at, layout, size) }) } else { given }
    }
}
