// Made by tools/plain_rust from crates/leasecheck/src/refusal.rt. Changes belong there.

use std::prelude::String;

use crate::proved::lease_texts::Schedule;
use crate::proved::leasecheck::failure::Failure;
use crate::proved::leasecheck::remarks::{
    bare_remark, capture_remark, events_remark, fact_remark, facts_remark, hex_remark, line_at, part_remark, setup_remark,
    shown_remark, unread_line,
};
use crate::proved::leasecheck::tasks::{Kind, Task};
use crate::proved::record_words::PictureFault;
use smblease::proved::lease_state::Memory;
use smblease::proved::lease_world::RunFault;
use std::alloc::{AllocError, AllocFailed, Global};

/// Why a task is refused, and what else is said of it.
#[derive(Debug)]
pub struct Refusal {
    pub failure: Failure,
    /// A second line, with its line feed. There is none where no more is to be said, or no memory for it.
    pub second: Option<String>,
}

// A text that there was memory for.
fn some(text: Result<String, AllocError>) -> Option<String> {
    match text {
        Ok(text) => Some(text),
        Err(_) => None,
    }
}

fn some_of(text: Result<Option<String>, AllocError>) -> Option<String> {
    match text {
        Ok(text) => text,
        Err(_) => None,
    }
}

impl Refusal {
    /// A failure of which no more is said.
    pub fn bare(failure: Failure) -> Refusal {
        Refusal { failure, second: None }
    }

    /// The same of a task, of whose file is said why it can't be opened or read where that is the failure.
    pub fn of_task(self, alloc: Global, task: &Task) -> Refusal {
        match (self.failure, task.path()) {
            (Failure::File(fault), Some(path)) => {
                Refusal { failure: self.failure, second: some(unread_line(alloc, path, fault)) }
            }
            _ => self,
        }
    }

    /// The failure of an argument that should be bytes.
    pub fn of_digits(alloc: Global, failure: Failure, argument: &str) -> Refusal {
        match failure {
            Failure::Hex => Refusal { failure, second: some(hex_remark(alloc, argument.as_bytes())) },
            _ => Refusal::bare(failure),
        }
    }

    /// The failure of the bytes that an argument gives, those of a notification without a header.
    pub fn of_notification(alloc: Global, failure: Failure, bytes: &[u8]) -> Refusal {
        match failure {
            Failure::Wire(fault) => Refusal { failure, second: some_of(bare_remark(alloc, Kind::Break, bytes, fault)) },
            _ => Refusal::bare(failure),
        }
    }

    /// The same of bytes that are shown.
    pub fn of_shown(alloc: Global, failure: Failure, kind: Kind, bytes: &[u8]) -> Refusal {
        match failure {
            Failure::Wire(fault) => Refusal { failure, second: some_of(shown_remark(alloc, kind, bytes, fault)) },
            _ => Refusal::bare(failure),
        }
    }

    /// A line of a record that is no fact.
    pub fn of_fact(alloc: Global, number: u64, line: &[u8]) -> Refusal {
        Refusal { failure: Failure::Line(number), second: some_of(fact_remark(alloc, number, line)) }
    }

    /// A text of which the line of this number is none of a schedule, or stands in a wrong place.
    pub fn of_part(alloc: Global, number: u64, text: &[u8]) -> Refusal {
        Refusal { failure: Failure::Line(number), second: some(part_remark(alloc, number, line_at(text, number))) }
    }

    /// A line of a capture that is refused.
    pub fn of_capture(alloc: Global, number: u64) -> Refusal {
        Refusal { failure: Failure::Line(number), second: some(capture_remark(alloc, number)) }
    }

    /// Why there is no picture of so many facts.
    pub fn of_picture(alloc: Global, fault: PictureFault, count: usize) -> Refusal {
        match fault {
            PictureFault::TooMany => Refusal { failure: Failure::Picture, second: some(facts_remark(alloc, count)) },
            PictureFault::Memory => Refusal::bare(Failure::Memory),
        }
    }

    /// Why there is no run of a schedule.
    pub fn of_run(alloc: Global, failure: Failure, schedule: &Schedule) -> Refusal {
        match failure {
            Failure::Run(RunFault::BadSetup) => Refusal { failure, second: some_of(setup_remark(alloc, schedule)) },
            Failure::Run(RunFault::TooMany) => Refusal { failure, second: some(events_remark(alloc, schedule)) },
            _ => Refusal::bare(failure),
        }
    }
}

impl From<Failure> for Refusal {
    fn from(failure: Failure) -> Refusal {
        Refusal::bare(failure)
    }
}

impl From<AllocError> for Refusal {
    fn from(_error: AllocError) -> Refusal {
        Refusal::bare(Failure::Memory)
    }
}

impl<T> From<AllocFailed<T>> for Refusal {
    fn from(_error: AllocFailed<T>) -> Refusal {
        Refusal::bare(Failure::Memory)
    }
}

impl From<Memory> for Refusal {
    fn from(_error: Memory) -> Refusal {
        Refusal::bare(Failure::Memory)
    }
}
