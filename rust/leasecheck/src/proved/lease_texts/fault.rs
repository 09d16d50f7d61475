// Made by tools/plain_rust from crates/lease_texts/src/fault.rt. Changes belong there.

use smblease::proved::lease_state::Memory;
use std::alloc::{AllocError, AllocFailed};

/// Why a line of a schedule or of a record gives nothing.
#[derive(Clone, Copy, Debug, PartialEq, Eq)]
pub enum LineFault {
    /// No line reads so.
    Refused,
    /// There was no memory for what it holds.
    Memory,
}

impl From<AllocError> for LineFault {
    fn from(_error: AllocError) -> LineFault {
        LineFault::Memory
    }
}

impl<T> From<AllocFailed<T>> for LineFault {
    fn from(_error: AllocFailed<T>) -> LineFault {
        LineFault::Memory
    }
}

/// Why a text is no schedule.
#[derive(Clone, Copy, Debug, PartialEq, Eq)]
pub enum TextFault {
    /// The line of this number, from 1, is the first that is refused.
    Line(u64),
    /// There was no memory for what it holds.
    Memory,
}

impl From<Memory> for LineFault {
    fn from(_error: Memory) -> LineFault {
        LineFault::Memory
    }
}
