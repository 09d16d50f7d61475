// Made by tools/plain_rust from crates/capture_judge/src/charging.rt. Changes belong there.

use std::prelude::Vec;

use crate::proved::capture_judge::values::{Chain, Change, Charge, Step};
use smblease::proved::lease_state::Memory;

// The first change of a chain that must happen after where it has come, and the last position at which that and all that must
// happen after it can still happen.
#[derive(Clone, Copy)]
pub(crate) struct Due {
    change: usize,
    position: u64,
}

// With one more change that must happen.
fn due_with(due: Option<Due>, change: usize, last: u64) -> Due {
    match due {
        Some(due) if due.position <= last => due,
        Some(due) => Due { change: due.change, position: last },
        None => Due { change, position: last },
    }
}

fn next_due(changes: &[Change], from: usize) -> Option<Due> {
    let mut due: Option<Due> = None;
    for index in from..changes.len() {
        if let Some(last) = changes[index].last {
            due = Some(due_with(due, index, last));
        }
    }
    due
}

// The one with the lower position.
fn sooner(found: Option<Step>, step: Step) -> Step {
    match found {
        Some(one) if one.position <= step.position => one,
        _ => step,
    }
}

// The step to what must happen next, of all chains.
fn next_step(chains: &[Chain], came: &[usize]) -> Option<Step> {
    let mut found: Option<Step> = None;
    for (index, chain) in chains.iter().enumerate() {
        if let Some(due) = next_due(chain.changes.as_slice(), came[index]) {
            found = Some(sooner(found, Step { position: due.position, chain: index, change: due.change }));
        }
    }
    found
}

// The charge at a position, with these steps and after them all that must follow.
pub(crate) fn charge_after(chains: &[Chain], position: u64, came: Vec<usize>, steps: Vec<Step>) -> Result<Charge, Memory> {
    let mut came = came;
    let mut steps = steps;
    while let Some(step) = next_step(chains, came.as_slice()) {
        came[step.chain] = step.change + 1;
        steps.push(step)?;
    }
    Ok(Charge { position, steps })
}
