//! Rust's memory for the program. Calls of the proved code say so where there is none; `clap` can't, and Rust would end the process by
//! a signal there. While `clap` is called the process ends as the program does for want of memory.
use core::alloc::{GlobalAlloc, Layout};
use core::sync::atomic::{AtomicBool, Ordering};
extern crate std;
use std::alloc::System;
use std::io::Write as _;

static MUST_BE_FOUND: AtomicBool = AtomicBool::new(false);

/// Makes a call that can't say that there is no memory; the process ends where that happens.
pub fn finding_memory<T>(call: impl FnOnce() -> T) -> T {
    let before = MUST_BE_FOUND.swap(true, Ordering::Relaxed);
    let given = call();
    MUST_BE_FOUND.store(before, Ordering::Relaxed);
    given
}

/// Rust's allocator, for the program.
#[derive(Debug)]
pub struct Memory;

impl Memory {
    fn found(at: *mut u8) -> *mut u8 {
        if at.is_null() && MUST_BE_FOUND.load(Ordering::Relaxed) {
            // Standard error has no buffer, so nothing is allocated.
            let _ = std::io::stderr().write_all(b"fault memory\n");
            std::process::exit(1);
        }
        at
    }
}

// SAFETY: all memory is Rust's allocator's own.
unsafe impl GlobalAlloc for Memory {
    unsafe fn alloc(&self, layout: Layout) -> *mut u8 {
        // SAFETY: the caller's word.
        Memory::found(unsafe { System.alloc(layout) })
    }

    unsafe fn alloc_zeroed(&self, layout: Layout) -> *mut u8 {
        // SAFETY: the caller's word.
        Memory::found(unsafe { System.alloc_zeroed(layout) })
    }

    unsafe fn dealloc(&self, at: *mut u8, layout: Layout) {
        // SAFETY: the caller's word.
        unsafe { System.dealloc(at, layout) }
    }

    unsafe fn realloc(&self, at: *mut u8, layout: Layout, size: usize) -> *mut u8 {
        // SAFETY: the caller's word.
        Memory::found(unsafe { System.realloc(at, layout, size) })
    }
}
