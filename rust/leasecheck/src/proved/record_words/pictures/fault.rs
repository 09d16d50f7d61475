// Made by tools/plain_rust from crates/record_words/src/pictures/fault.rt. Changes belong there.

use std::alloc::{AllocError, AllocFailed};

/// Why there is no picture.
#[derive(Clone, Copy, Debug, PartialEq, Eq)]
pub enum PictureFault {
    /// The record has more than [`MOST_FACTS`](crate::proved::record_words::MOST_FACTS) facts.
    TooMany,
    /// There was no memory.
    Memory,
}

impl From<AllocError> for PictureFault {
    fn from(_error: AllocError) -> PictureFault {
        PictureFault::Memory
    }
}

impl<T> From<AllocFailed<T>> for PictureFault {
    fn from(_error: AllocFailed<T>) -> PictureFault {
        PictureFault::Memory
    }
}
