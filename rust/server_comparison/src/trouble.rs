use leasecheck::proved::lease_texts::TextFault;
use smblease::proved::lease_state::{ContentFault, Memory};
use std::alloc::{AllocError, AllocFailed};
use std::fmt;
use std::prelude::String;

/// Why a comparison ended early.
pub enum Trouble {
    /// The servers differ: which call it was, and what each of them gave out or answered.
    Differs(String),
    /// The file can't be read.
    File,
    /// The line of this number is none of a schedule.
    Line(u64),
    Memory,
}

impl fmt::Display for Trouble {
    fn fmt(&self, f: &mut fmt::Formatter<'_>) -> fmt::Result {
        match self {
            Trouble::Differs(text) => write!(f, "{text}"),
            Trouble::File => write!(f, "the file can't be read"),
            Trouble::Line(number) => write!(f, "line {number} is none of a schedule"),
            Trouble::Memory => write!(f, "out of memory"),
        }
    }
}

impl From<Memory> for Trouble {
    fn from(_fault: Memory) -> Trouble {
        Trouble::Memory
    }
}

impl From<AllocError> for Trouble {
    fn from(_fault: AllocError) -> Trouble {
        Trouble::Memory
    }
}

impl<T> From<AllocFailed<T>> for Trouble {
    fn from(_fault: AllocFailed<T>) -> Trouble {
        Trouble::Memory
    }
}

impl From<ContentFault> for Trouble {
    fn from(_fault: ContentFault) -> Trouble {
        Trouble::Memory
    }
}

impl From<TextFault> for Trouble {
    fn from(fault: TextFault) -> Trouble {
        match fault {
            TextFault::Line(number) => Trouble::Line(number),
            TextFault::Memory => Trouble::Memory,
        }
    }
}
