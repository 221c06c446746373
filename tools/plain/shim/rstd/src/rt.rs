//! The runtime, by which the program allocates, reads and writes. It has one thread.

use crate::alloc::Global;
use std::ffi::c_int;
use std::fs::File;
use std::hint::black_box;
use std::io::{self, Read, Write};
use std::mem::ManuallyDrop;
use std::os::fd::FromRawFd;

/// Stands in every program that is made so, by which scripts know it from one that was proved.
static MARK: &str = "made by tools/plain, not proved";

/// How far the stack may grow. The toolchain's programs count on 8 MiB, and the frames of this build may be larger.
const STACK: u64 = 64 << 20;

pub trait Alloc {
    fn alloc(&self) -> Global;
}

pub trait AllocGlobal: Alloc {}

impl<R: Alloc> AllocGlobal for R {}

pub struct HostRuntime;

impl Alloc for HostRuntime {
    #[inline]
    fn alloc(&self) -> Global {
        Global
    }
}

impl HostRuntime {
    /// Made once, where `main` begins.
    pub fn start() -> HostRuntime {
        black_box(MARK);
        widen_stack();
        crate::alloc::start();
        HostRuntime
    }

    pub fn stdin(&self) -> Stdin {
        Descriptor::of(0)
    }

    pub fn stdout(&self) -> Stdout {
        Descriptor::of(1)
    }

    pub fn stderr(&self) -> Stderr {
        Descriptor::of(2)
    }
}

/// Has the system let the stack grow as far as that, or as it may at most. A stack that has begun takes the new limit too.
fn widen_stack() {
    const RLIMIT_STACK: c_int = 3;

    #[repr(C)]
    struct Limit {
        now: u64,
        most: u64,
    }

    unsafe extern "C" {
        fn getrlimit(of: c_int, limit: *mut Limit) -> c_int;
        fn setrlimit(of: c_int, limit: *const Limit) -> c_int;
    }

    let mut limit = Limit { now: 0, most: 0 };
    unsafe {
        if getrlimit(RLIMIT_STACK, &mut limit) == 0 && limit.now < STACK {
            limit.now = STACK.min(limit.most);
            setrlimit(RLIMIT_STACK, &limit);
        }
    }
}

pub type Stdin = Descriptor;
pub type Stdout = Descriptor;
pub type Stderr = Descriptor;

/// A descriptor of the system, with no buffer, which stays open.
pub struct Descriptor(ManuallyDrop<File>);

impl Descriptor {
    fn of(number: i32) -> Descriptor {
        Descriptor(ManuallyDrop::new(unsafe { File::from_raw_fd(number) }))
    }
}

impl Read for Descriptor {
    fn read(&mut self, into: &mut [u8]) -> io::Result<usize> {
        self.0.read(into)
    }
}

impl Write for Descriptor {
    fn write(&mut self, piece: &[u8]) -> io::Result<usize> {
        self.0.write(piece)
    }

    fn flush(&mut self) -> io::Result<()> {
        Ok(())
    }
}
