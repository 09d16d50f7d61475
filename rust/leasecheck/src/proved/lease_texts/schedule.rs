// Made by tools/plain_rust from crates/lease_texts/src/schedule.rt. Changes belong there.

//! Whole schedules: the setup of a run, and its events.
use std::prelude::{String, Vec};

use crate::proved::lease_texts::fault::{LineFault, TextFault};
use crate::proved::lease_texts::lines::{first_line, is_passed_over};
use crate::proved::lease_texts::parts::{Part, read_part};
use crate::proved::lease_texts::said::line;
use smblease::proved::lease_facts::{Event, Setup};
use smblease::proved::lease_state::Content;
use std::alloc::{AllocError, Global};

/// What a schedule asks for: a setup, and what happens in it.
#[derive(Debug)]
pub struct Schedule {
    pub setup: Setup,
    pub events: Vec<Event>,
}

impl Schedule {
    fn new(alloc: Global) -> Schedule {
        let (files, clients, events) = (Vec::new(alloc), Vec::new(alloc), Vec::new(alloc));
        let setup = Setup { files, clients };
        Schedule { setup, events }
    }

    // Files and clients stand before the first event.
    fn add(&mut self, part: Part) -> Result<(), LineFault> {
        match part {
            Part::Happens(event) => self.events.push(event)?,
            _ if !self.events.is_empty() => return Err(LineFault::Refused),
            Part::File(content) => self.setup.files.push(content)?,
            Part::Client(guid) => self.setup.clients.push(guid)?,
        }
        Ok(())
    }

    fn add_line(&mut self, alloc: Global, line: &[u8]) -> Result<(), LineFault> {
        if is_passed_over(line) {
            return Ok(());
        }
        let part = read_part(alloc, line)?;
        self.add(part)
    }
}

/// The schedule that a text is.
///
/// # Errors
///
/// `Line` with the number of the first line that is refused, and `Memory` where there is none left.
pub fn read_schedule(alloc: Global, text: &[u8]) -> Result<Schedule, TextFault> {
    let mut schedule = Schedule::new(alloc);
    let mut rest = text;
    let mut number = 0u64;
    while !rest.is_empty() {
        let (line, behind) = first_line(rest);
        number += 1;
        match schedule.add_line(alloc, line) {
            Ok(()) => rest = behind,
            Err(LineFault::Refused) => return Err(TextFault::Line(number)),
            Err(LineFault::Memory) => return Err(TextFault::Memory),
        }
    }
    Ok(schedule)
}

fn push_files(text: &mut String, files: &[Content]) -> Result<(), AllocError> {
    for content in files {
        line!(text, "file", Content: content.bytes())?;
    }
    Ok(())
}

fn push_clients(text: &mut String, guids: &[[u8; 16]]) -> Result<(), AllocError> {
    for guid in guids {
        line!(text, "client", Guid: guid)?;
    }
    Ok(())
}

/// Adds the lines of a setup: those of its files, then those of its clients.
pub fn push_setup(text: &mut String, setup: &Setup) -> Result<(), AllocError> {
    push_files(text, setup.files.as_slice())?;
    push_clients(text, setup.clients.as_slice())
}
