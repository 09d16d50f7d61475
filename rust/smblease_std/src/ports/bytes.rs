//! Bytes that several values hold without a copy of their own, as `bytes` has them. That crate's own can't refuse for want of
//! memory, and neither can Rust's counted pointers.
use crate::alloc::{AllocError, Global};
use crate::boxed::Box;
use crate::vec::Vec;
use core::fmt;
use core::mem::ManuallyDrop;
use core::ops::Deref;
use core::ptr::NonNull;
use core::sync::atomic::{AtomicUsize, Ordering, fence};

struct Held {
    holders: AtomicUsize,
    bytes: Vec<u8>,
}

/// Bytes that nobody writes while more than one value holds them.
pub struct Bytes {
    at: NonNull<Held>,
}

// SAFETY: the count is atomic, and with more than one holder the bytes are only read.
unsafe impl Send for Bytes {}
// SAFETY: as above.
unsafe impl Sync for Bytes {}

impl Bytes {
    /// The bytes of a vector, which aren't copied.
    pub fn from_vec(bytes: Vec<u8>) -> Result<Bytes, AllocError> {
        let held = Held { holders: AtomicUsize::new(1), bytes };
        let (at, _) = Box::into_raw_with_allocator(Box::new(Global, held)?);
        // SAFETY: a box's pointer isn't null.
        Ok(Bytes { at: unsafe { NonNull::new_unchecked(at) } })
    }

    fn held(&self) -> &Held {
        // SAFETY: what is pointed to is there as long as a holder is, and nobody writes it but where it is counted.
        unsafe { self.at.as_ref() }
    }

    /// The bytes.
    pub fn as_slice(&self) -> &[u8] {
        &self.held().bytes
    }

    /// Whether no other value holds them.
    pub fn is_unique(&self) -> bool {
        self.held().holders.load(Ordering::Acquire) == 1
    }

    /// The same bytes for one more that holds them. It fails where there are more holders than can be counted.
    #[allow(clippy::should_implement_trait, reason = "Rust's clone can't refuse")]
    pub fn clone(&self) -> Result<Bytes, AllocError> {
        let counted = self.held().holders.fetch_update(Ordering::Relaxed, Ordering::Relaxed, |count| count.checked_add(1));
        counted.map_err(|_| AllocError)?;
        Ok(Bytes { at: self.at })
    }

    /// The bytes to be written, where no other value holds them.
    pub fn try_into_mut(self) -> Result<BytesMut, Bytes> {
        if !self.is_unique() {
            return Err(self);
        }
        let kept = ManuallyDrop::new(self);
        // SAFETY: this is the only holder, and isn't dropped.
        let held = Box::into_inner(unsafe { Box::from_raw(Global, kept.at.as_ptr()) });
        Ok(BytesMut(held.bytes))
    }
}

/// Bytes that one value holds.
pub struct BytesMut(Vec<u8>);

impl BytesMut {
    /// The bytes as a vector, which aren't copied.
    pub fn into_vec(self) -> Result<Vec<u8>, AllocError> {
        Ok(self.0)
    }
}

impl Drop for Bytes {
    fn drop(&mut self) {
        if self.held().holders.fetch_sub(1, Ordering::Release) == 1 {
            fence(Ordering::Acquire);
            // SAFETY: this was the last holder.
            drop(unsafe { Box::from_raw(Global, self.at.as_ptr()) });
        }
    }
}

impl Deref for Bytes {
    type Target = [u8];

    fn deref(&self) -> &[u8] {
        self.as_slice()
    }
}

impl PartialEq for Bytes {
    fn eq(&self, other: &Bytes) -> bool {
        self.as_slice() == other.as_slice()
    }
}

impl Eq for Bytes {}

impl fmt::Debug for Bytes {
    fn fmt(&self, f: &mut fmt::Formatter<'_>) -> fmt::Result {
        self.as_slice().fmt(f)
    }
}
