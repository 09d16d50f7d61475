//! Slices as C passes them.

/// The items that C passes as a pointer and a length.
///
/// # Safety
///
/// There are so many items at the pointer, and nobody writes them meanwhile. It may be null where the length is 0.
#[inline(always)]
pub unsafe fn slice<'a, T>(at: *const T, count: usize) -> &'a [T] {
    if count == 0 {
        return &[];
    }
    // SAFETY: the caller's word.
    unsafe { core::slice::from_raw_parts(at, count) }
}

/// The items that C passes to be written, as a pointer and a length.
///
/// # Safety
///
/// There are so many items at the pointer, and nobody else reads or writes them meanwhile. It may be null where the length is 0.
#[inline(always)]
pub unsafe fn slice_mut<'a, T>(at: *mut T, count: usize) -> &'a mut [T] {
    if count == 0 {
        return &mut [];
    }
    // SAFETY: the caller's word.
    unsafe { core::slice::from_raw_parts_mut(at, count) }
}
