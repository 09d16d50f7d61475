use crate::alloc::{AllocFailed, Allocator, Global};
use core::fmt;
use core::mem;
use core::ops::{Deref, DerefMut};
use rust_alloc::boxed::Box as Inner;
use rust_alloc::vec::Vec;

/// A value in memory of its own.
///
/// It is kept as an array of one, since a vector of one is what safe Rust has that can refuse to be made.
pub struct Box<T, A: Allocator = Global> {
    held: Inner<[T; 1]>,
    alloc: A,
}

impl<T, A: Allocator> Box<T, A> {
    /// Puts a value into memory.
    ///
    /// # Errors
    ///
    /// The value comes back where there is no memory.
    pub fn new(alloc: A, value: T) -> Result<Box<T, A>, AllocFailed<T>> {
        let mut one = Vec::new();
        if one.try_reserve_exact(1).is_err() {
            return Err(AllocFailed { value });
        }
        one.push(value);
        match one.into_boxed_slice().try_into() {
            Ok(held) => Ok(Box { held, alloc }),
            Err(_) => unreachable!("a vector of one is an array of one"),
        }
    }

    /// Takes the value out.
    pub fn into_inner(boxed: Box<T, A>) -> T {
        let [value] = *boxed.held;
        value
    }

    /// Puts another value in, and gives the one that was there.
    pub fn replace(boxed: &mut Box<T, A>, value: T) -> T {
        mem::replace(&mut **boxed, value)
    }

    /// The value's pointer, which nobody frees then, and the allocator.
    pub fn into_raw_with_allocator(boxed: Box<T, A>) -> (*mut T, A) {
        (Inner::into_raw(boxed.held).cast(), boxed.alloc)
    }

    /// The box again of a pointer.
    ///
    /// # Safety
    ///
    /// The pointer came from `into_raw_with_allocator`, and no box was made of it since.
    pub unsafe fn from_raw(alloc: A, at: *mut T) -> Box<T, A> {
        // SAFETY: by the caller's word it is a box's pointer, whose array of one begins where its value does.
        Box { held: unsafe { Inner::from_raw(at.cast()) }, alloc }
    }
}

impl<T, A: Allocator> Deref for Box<T, A> {
    type Target = T;

    fn deref(&self) -> &T {
        let [value] = &*self.held;
        value
    }
}

impl<T, A: Allocator> DerefMut for Box<T, A> {
    fn deref_mut(&mut self) -> &mut T {
        let [value] = &mut *self.held;
        value
    }
}

impl<T: fmt::Debug, A: Allocator> fmt::Debug for Box<T, A> {
    fn fmt(&self, f: &mut fmt::Formatter<'_>) -> fmt::Result {
        (**self).fmt(f)
    }
}

impl<T: PartialEq, A: Allocator> PartialEq for Box<T, A> {
    fn eq(&self, other: &Box<T, A>) -> bool {
        **self == **other
    }
}

impl<T: Eq, A: Allocator> Eq for Box<T, A> {}
