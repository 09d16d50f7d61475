// Made by tools/plain_rust from crates/leasecheck/src/replaying.rt. Changes belong there.

use std::prelude::Vec;

use crate::proved::lease_texts::{Schedule, TextFault, read_schedule};
use crate::proved::leasecheck::failure::Failure;
use crate::proved::leasecheck::idle::event_lines;
use crate::proved::leasecheck::recording::Record;
use crate::proved::leasecheck::refusal::Refusal;
use crate::proved::leasecheck::tasks::Telling;
use smblease::proved::lease_state::Rules;
use smblease::proved::lease_world::{Kept, RunFault, run_under};
use std::alloc::Global;

pub(crate) fn not_run(fault: RunFault) -> Failure {
    match fault {
        RunFault::Memory => Failure::Memory,
        RunFault::BadSetup | RunFault::TooMany => Failure::Run(fault),
    }
}

// The record of a run with a server of these rules, with its messages where they are asked for, and with the events that did
// nothing, which stand in these lines, where that is.
fn ran(alloc: Global, telling: Telling, rules: Rules, schedule: &Schedule, lines: Vec<u64>) -> Result<Record, Refusal> {
    let kept = Kept { messages: telling.messages, idle: telling.idle, passages: false };
    match run_under(alloc, rules, kept, &schedule.setup, schedule.events.as_slice()) {
        Ok(told) => Ok(Record { facts: told.facts, messages: told.messages, lines, idle: told.idle, rules }),
        Err(fault) => Err(Refusal::of_run(alloc, not_run(fault), schedule)),
    }
}

// The numbers of the lines that tell events, where they are asked for.
fn lines_asked_for(alloc: Global, telling: Telling, text: &[u8]) -> Result<Vec<u64>, Failure> {
    if !telling.idle {
        return Ok(Vec::new(alloc));
    }
    match event_lines(alloc, text) {
        Ok(lines) => Ok(lines),
        Err(_) => Err(Failure::Memory),
    }
}

fn schedule_of(alloc: Global, text: &[u8]) -> Result<Schedule, Refusal> {
    match read_schedule(alloc, text) {
        Ok(schedule) => Ok(schedule),
        Err(TextFault::Line(number)) => Err(Refusal::of_part(alloc, number, text)),
        Err(TextFault::Memory) => Err(Refusal::bare(Failure::Memory)),
    }
}

/// What `leasecheck replay` prints for the text of a schedule: the record of its run with a server of these rules, with its
/// messages where they are asked for, and the events that did nothing where these are. It is safe, as `replays_are_safe` says,
/// and isn't judged once more.
///
/// # Errors
///
/// `Line` with the number of the first line that is refused, else `Run` where there is no run of
/// the schedule, and `Memory` where there is none left; with what else is said of it.
pub fn replay(alloc: Global, telling: Telling, rules: Rules, schedule: &[u8]) -> Result<Record, Refusal> {
    let draft = schedule_of(alloc, schedule)?;
    let lines = lines_asked_for(alloc, telling, schedule)?;
    ran(alloc, telling, rules, &draft, lines)
}
