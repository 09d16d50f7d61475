//! Allocations that are refused on demand, for tests.
//!
//! A test's program takes [`Refusing`] as its allocator:
//!
//! ```
//! #[global_allocator]
//! static REFUSING: smblease_std::refusing::Refusing = smblease_std::refusing::Refusing;
//! ```
use core::alloc::{GlobalAlloc, Layout};
use core::cell::Cell;
use core::ops::RangeInclusive;
use rust_std::alloc::System;
use rust_std::thread::panicking;
use rust_std::thread_local;

/// Rust's allocator, which refuses what [`without`] says.
pub struct Refusing;

thread_local! {
    static ALLOCATIONS: Cell<usize> = const { Cell::new(0) };
    static REFUSED: Cell<Option<(usize, usize)>> = const { Cell::new(None) };
}

// Counts an allocation of this thread. What a panic needs is granted, and all that a thread needs when it ends.
fn is_granted() -> bool {
    let counted = ALLOCATIONS.try_with(|allocations| {
        allocations.set(allocations.get() + 1);
        allocations.get()
    });
    let refused = REFUSED.try_with(Cell::get).ok().flatten();
    let (Ok(number), Some((first, last))) = (counted, refused) else { return true };
    number < first || number > last || panicking()
}

// SAFETY: memory is Rust's allocator's own; an allocation that is refused changes nothing.
unsafe impl GlobalAlloc for Refusing {
    unsafe fn alloc(&self, layout: Layout) -> *mut u8 {
        // SAFETY: the caller's word.
        if is_granted() { unsafe { System.alloc(layout) } } else { core::ptr::null_mut() }
    }

    unsafe fn dealloc(&self, at: *mut u8, layout: Layout) {
        // SAFETY: the caller's word.
        unsafe { System.dealloc(at, layout) }
    }

    unsafe fn realloc(&self, at: *mut u8, layout: Layout, size: usize) -> *mut u8 {
        // SAFETY: the caller's word.
        if is_granted() { unsafe { System.realloc(at, layout, size) } } else { core::ptr::null_mut() }
    }
}

/// What the call gives, and how many allocations this thread asked for in it; none are seen where the program has another allocator.
pub fn counted<T>(call: impl FnOnce() -> T) -> (T, usize) {
    ALLOCATIONS.set(0);
    let given = call();
    (given, ALLOCATIONS.get())
}

/// What the call gives where those of this thread's allocations in it are refused whose numbers, from 1 on, are in the range.
pub fn without<T>(refused: RangeInclusive<usize>, call: impl FnOnce() -> T) -> T {
    ALLOCATIONS.set(0);
    REFUSED.set(Some((*refused.start(), *refused.end())));
    let given = call();
    grant();
    given
}

/// Grants this thread all that it asks for from here on.
pub fn grant() {
    REFUSED.set(None);
}
