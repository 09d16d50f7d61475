// Made by tools/plain_rust from crates/leasecheck/src/failure.rt. Changes belong there.

use crate::proved::leasecheck::file_fault::FileFault;
use smblease::proved::lease_state::Memory;
use smblease::proved::lease_wire::WireFault;
use smblease::proved::lease_world::RunFault;
use std::alloc::{AllocError, AllocFailed};
use std::fmt;
use std::io::ErrorKind;

/// Why a task is refused. As text it is the line that standard error gets, without its line feed.
#[derive(Clone, Copy, Debug, PartialEq, Eq)]
pub enum Failure {
    /// The argument isn't bytes in hexadecimal digits.
    Hex,
    /// The bytes are refused.
    Wire(WireFault),
    /// The file can't be opened or read.
    File(FileFault),
    /// The file has more lines than there are numbers of 64 bits.
    Lines,
    /// The line of this number, from 1, is refused.
    Line(u64),
    /// There is no run of the schedule.
    Run(RunFault),
    /// There are more facts than a picture has.
    Picture,
    /// There was no memory.
    Memory,
    /// A write to standard output failed.
    Output,
}

fn failure_by(fault: Option<FileFault>) -> Failure {
    match fault {
        Some(fault) => Failure::File(fault),
        None => Failure::Memory,
    }
}

impl Failure {
    /// What a read, or the opening of a file, fails as whose error is of this kind.
    pub fn of_reading(kind: ErrorKind) -> Failure {
        failure_by(FileFault::of(kind))
    }
}

impl fmt::Display for Failure {
    fn fmt(&self, f: &mut fmt::Formatter<'_>) -> fmt::Result {
        match self {
            Failure::Hex => f.write_str("fault hex"),
            Failure::Wire(fault) => write!(f, "fault {fault}"),
            Failure::File(_) | Failure::Lines => f.write_str("fault file"),
            Failure::Line(number) => write!(f, "fault line {number}"),
            Failure::Run(RunFault::BadSetup) => f.write_str("fault run 1 BadSetup"),
            Failure::Run(RunFault::TooMany) => f.write_str("fault run 2 TooMany"),
            Failure::Picture => f.write_str("fault picture TooMany"),
            Failure::Run(RunFault::Memory) | Failure::Memory => f.write_str("fault memory"),
            Failure::Output => f.write_str("fault output"),
        }
    }
}

impl From<WireFault> for Failure {
    fn from(fault: WireFault) -> Failure {
        Failure::Wire(fault)
    }
}

impl From<AllocError> for Failure {
    fn from(_error: AllocError) -> Failure {
        Failure::Memory
    }
}

impl<T> From<AllocFailed<T>> for Failure {
    fn from(_error: AllocFailed<T>) -> Failure {
        Failure::Memory
    }
}

impl From<Memory> for Failure {
    fn from(_error: Memory) -> Failure {
        Failure::Memory
    }
}

impl From<RunFault> for Failure {
    fn from(fault: RunFault) -> Failure {
        Failure::Run(fault)
    }
}
