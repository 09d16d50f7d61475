// Made by tools/plain_rust from crates/lease_state/src/memory.rt. Changes belong there.

use std::alloc::{AllocError, AllocFailed};

/// The one fault of a call that can only run out of memory (profile).
#[derive(Clone, Copy, Debug, PartialEq, Eq, Hash)]
pub struct Memory;

impl std::fmt::Display for Memory {
    fn fmt(&self, f: &mut std::fmt::Formatter<'_>) -> std::fmt::Result {
        f.write_str("out of memory")
    }
}

impl std::error::Error for Memory {}

/// So that `?` passes a refused allocation on as `Memory`.
impl From<AllocError> for Memory {
    fn from(_refused: AllocError) -> Memory {
        Memory
    }
}

/// So that `?` passes a refused push on as `Memory`. The item that found no room is dropped.
impl<T> From<AllocFailed<T>> for Memory {
    fn from(_refused: AllocFailed<T>) -> Memory {
        Memory
    }
}

#[cfg(test)]
mod tests {
    use super::*;

    #[test]
    fn refused_allocations_become_memory() {
        assert_eq!(Memory::from(AllocError), Memory);
        assert_eq!(Memory::from(AllocFailed { value: 7u8 }), Memory);
    }
}
