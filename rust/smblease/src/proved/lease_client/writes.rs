// Made by tools/plain_rust from crates/lease_client/src/writes.rt. Changes belong there.

use std::prelude::Vec;

use crate::proved::lease_client::entry::Pending;
use crate::proved::lease_client::values::note::{Note, Settlement};
use crate::proved::lease_client::writes::queue::Writes;
use crate::proved::lease_state::Memory;

pub mod queue;
pub mod shown;

/// Notes that each of the writes is settled in this way, after the notes that there are.
///
/// # Errors
///
/// `Memory` where there is none left for the notes, and never where there are no writes.
pub fn push_settled(notes: &mut Vec<Note>, outcome: Settlement, writes: &Writes) -> Result<(), Memory> {
    let (first, rest) = writes.as_slices();
    push_each_settled(notes, outcome, first)?;
    push_each_settled(notes, outcome, rest)
}

fn push_each_settled(notes: &mut Vec<Note>, outcome: Settlement, writes: &[Pending]) -> Result<(), Memory> {
    for write in writes {
        notes.push(Note::Settled(write.number, outcome))?;
    }
    Ok(())
}
