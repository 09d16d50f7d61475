// Made by tools/plain_rust from crates/kept_opens/src/fault.rt. Changes belong there.

use crate::proved::lease_state::Memory;

/// Why no opens were read (own).
#[derive(Clone, Copy, Debug, PartialEq, Eq)]
pub enum ReadError {
    /// The bytes are not those of any opens: they were cut off or changed, or are another file's.
    Damaged,
    /// There is no memory left for the opens.
    Memory,
}

impl std::fmt::Display for ReadError {
    fn fmt(&self, f: &mut std::fmt::Formatter<'_>) -> std::fmt::Result {
        f.write_str(match self {
            ReadError::Damaged => "1 Damaged",
            ReadError::Memory => "2 Memory",
        })
    }
}

impl std::error::Error for ReadError {}

impl From<Memory> for ReadError {
    fn from(_refused: Memory) -> ReadError {
        ReadError::Memory
    }
}

/// Why bytes make no manager (own).
#[derive(Clone, Copy, Debug, PartialEq, Eq)]
pub enum ImportError {
    /// The bytes are not those of any opens.
    Damaged,
    /// Their opens would break a law that holds of every manager.
    Unlawful,
    /// There is no memory left for the manager.
    Memory,
}

impl std::fmt::Display for ImportError {
    fn fmt(&self, f: &mut std::fmt::Formatter<'_>) -> std::fmt::Result {
        f.write_str(match self {
            ImportError::Damaged => "1 Damaged",
            ImportError::Unlawful => "2 Unlawful",
            ImportError::Memory => "3 Memory",
        })
    }
}

impl std::error::Error for ImportError {}
