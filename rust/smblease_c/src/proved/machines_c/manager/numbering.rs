// Made by tools/plain_rust from crates/machines_c/src/manager/numbering.rt. Changes belong there.

use std::prelude::Vec;

use smblease::proved::break_timers::BreakTimers;
use smblease::proved::lease_manager::Decision;
use smblease::proved::lease_state::Memory;

/// Timers start and stop as these decisions say: the numbers of those that start come onto the list, and 0 for a decision that
/// starts none.
pub fn note_all(timers: &mut BreakTimers, told: &[Decision], numbers: &mut Vec<u64>) -> Result<(), Memory> {
    for decision in told {
        let number = timers.note(decision)?;
        numbers.push(number.map_or(0, |one| one.0))?;
    }
    Ok(())
}
