// Made by tools/plain_rust from crates/machines_c/src/handles/loose.rt. Changes belong there.

use std::prelude::Box;

use std::alloc::Allocator;

/// A box as its pointer, and the allocator that has its memory.
pub struct Loose<T, A: Allocator> {
    pub at: *mut T,
    pub alloc: A,
}

impl<T, A: Allocator> Loose<T, A> {
    /// The pointer of a box. Nothing is allocated or freed.
    pub fn of(value: Box<T, A>) -> Loose<T, A> {
        let (at, alloc) = Box::into_raw_with_allocator(value);
        Loose { at, alloc }
    }

    /// The box again. Nothing is allocated or freed.
    pub fn into_box(self) -> Box<T, A> {
        let Loose { at, alloc } = self;
        unsafe { Box::from_raw(alloc, at) }
    }
}
