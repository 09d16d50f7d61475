// Made by tools/plain_rust from crates/leasecheck/src/remarks/setup.rt. Changes belong there.

use std::prelude::String;

use crate::proved::lease_texts::Schedule;
use std::alloc::{AllocError, Global};

// Where a GUID stands again.
fn place_of(guid: &[u8; 16], guids: &[[u8; 16]]) -> Option<usize> {
    guids.iter().position(|other| guid == other)
}

// The first client whose GUID a later one has, and the first of those.
fn twins(guids: &[[u8; 16]]) -> Option<(usize, usize)> {
    for place in 0..guids.len() {
        match place_of(&guids[place], &guids[place + 1..]) {
            Some(behind) => return Some((place + 1, place + 1 + 1 + behind)),
            None => {}
        }
    }
    None
}

fn too_many(alloc: Global, what: &str, most: usize, count: usize) -> Result<String, AllocError> {
    let mut text = String::new(alloc);
    writeln!(text, "at most {most} {what}; there are {count}")?;
    Ok(text)
}

fn twins_text(alloc: Global, first: usize, second: usize) -> Result<String, AllocError> {
    let mut text = String::new(alloc);
    writeln!(text, "no two clients with one GUID; clients {first} and {second} have one")?;
    Ok(text)
}

/// Which limit of a setup the schedule breaks: too many files or clients, or two clients with one GUID.
pub(crate) fn setup_remark(alloc: Global, schedule: &Schedule) -> Result<Option<String>, AllocError> {
    let (files, clients) = (schedule.setup.files.len(), schedule.setup.clients.len());
    if files > 8 {
        return Ok(Some(too_many(alloc, "files", 8, files)?));
    }
    if clients > 16 {
        return Ok(Some(too_many(alloc, "clients", 16, clients)?));
    }
    match twins(schedule.setup.clients.as_slice()) {
        Some((first, second)) => Ok(Some(twins_text(alloc, first, second)?)),
        None => Ok(None),
    }
}

/// How many events there are, which are too many.
pub(crate) fn events_remark(alloc: Global, schedule: &Schedule) -> Result<String, AllocError> {
    too_many(alloc, "events", 10_000, schedule.events.len())
}

/// How many facts there are, which are too many for a picture.
pub(crate) fn facts_remark(alloc: Global, count: usize) -> Result<String, AllocError> {
    too_many(alloc, "facts", 5000, count)
}
