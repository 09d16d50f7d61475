// Made by tools/plain_rust from crates/text_laws/src/judged.rt. Changes belong there.

use std::prelude::Vec;

use smblease::proved::lease_state::Rules;
use smblease::proved::lease_world::{Event, Fact, Kept, RunFault, Setup, run_under};
use std::alloc::Global;

/// The record of a run with a server of these rules, as `run_under` gives it, and of which what a replay prints is judged to be
/// safe.
///
/// # Errors
///
/// `BadSetup` exactly where the setup breaks its limits, else `TooMany` exactly where there are too many events, else
/// `Memory` where there is none left.
pub fn judged_run(alloc: Global, rules: Rules, setup: &Setup, events: &[Event]) -> Result<Vec<Fact>, RunFault> {
    let told = run_under(alloc, rules, Kept::nothing(), setup, events)?;
    Ok(told.facts)
}
