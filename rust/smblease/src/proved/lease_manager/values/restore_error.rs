// Made by tools/plain_rust from crates/lease_manager/src/values/restore_error.rt. Changes belong there.

use crate::proved::lease_state::Memory;

/// Why kept opens aren't restored. MS-SMB2 says nothing of restarts.
#[derive(Clone, Copy, Debug, PartialEq, Eq)]
pub enum RestoreError {
    /// A law that holds of every manager would be broken.
    Unlawful,
    /// There is no memory left.
    Memory,
}

/// So that `?` passes want of memory on.
impl From<Memory> for RestoreError {
    fn from(_refused: Memory) -> RestoreError {
        RestoreError::Memory
    }
}
