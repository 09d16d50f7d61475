//! The allocator, and the errors of memory that ran out.
use core::fmt;

/// The only allocator: Rust's global one.
#[derive(Clone, Copy, Debug, Default, PartialEq, Eq)]
pub struct Global;

/// An allocator. [`Global`] is the only one.
pub trait Allocator: Copy {}

impl Allocator for Global {}

/// There was no memory.
#[derive(Clone, Copy, Debug, PartialEq, Eq, Hash)]
pub struct AllocError;

impl fmt::Display for AllocError {
    fn fmt(&self, f: &mut fmt::Formatter<'_>) -> fmt::Result {
        f.write_str("memory allocation failed")
    }
}

impl core::error::Error for AllocError {}

impl From<AllocError> for fmt::Error {
    fn from(_error: AllocError) -> fmt::Error {
        fmt::Error
    }
}

/// There was no memory for this value, which is given back.
#[derive(Clone, Copy, PartialEq, Eq)]
pub struct AllocFailed<T> {
    /// What there was no memory for.
    pub value: T,
}

impl<T> fmt::Debug for AllocFailed<T> {
    fn fmt(&self, f: &mut fmt::Formatter<'_>) -> fmt::Result {
        f.write_str("AllocFailed")
    }
}

impl<T> fmt::Display for AllocFailed<T> {
    fn fmt(&self, f: &mut fmt::Formatter<'_>) -> fmt::Result {
        AllocError.fmt(f)
    }
}

impl<T> core::error::Error for AllocFailed<T> {}

impl<T> From<AllocFailed<T>> for AllocError {
    fn from(_failed: AllocFailed<T>) -> AllocError {
        AllocError
    }
}
