//! C's memory as Rust's.
use core::alloc::{GlobalAlloc, Layout};

mod c {
    unsafe extern "C" {
        pub safe fn malloc(size: usize) -> *mut u8;
        pub fn realloc(at: *mut u8, size: usize) -> *mut u8;
        pub fn free(at: *mut u8);
        pub safe fn abort() -> !;
    }
}

// How C's memory is aligned, in bytes.
const ALIGNMENT: usize = 16;

struct OfC;

// SAFETY: C's memory has the size that was asked for and C's alignment, and no other alignment is given.
unsafe impl GlobalAlloc for OfC {
    unsafe fn alloc(&self, layout: Layout) -> *mut u8 {
        if layout.align() > ALIGNMENT { core::ptr::null_mut() } else { c::malloc(layout.size()) }
    }

    unsafe fn dealloc(&self, at: *mut u8, _layout: Layout) {
        // SAFETY: it came from `malloc` or `realloc`, by the caller's word.
        unsafe { c::free(at) }
    }

    unsafe fn realloc(&self, at: *mut u8, _layout: Layout, size: usize) -> *mut u8 {
        // SAFETY: as above; memory of C's alignment keeps it.
        unsafe { c::realloc(at, size) }
    }
}

#[global_allocator]
static MEMORY: OfC = OfC;

/// Ends the process.
pub fn end() -> ! {
    c::abort()
}
