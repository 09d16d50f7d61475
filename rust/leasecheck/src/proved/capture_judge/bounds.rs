// Made by tools/plain_rust from crates/capture_judge/src/bounds.rt. Changes belong there.

use std::prelude::Vec;

use crate::proved::capture_judge::values::{Chain, Change};
use smblease::proved::lease_state::Memory;
use std::alloc::Global;

// Whether the changes can be placed in their order, wherever those of other chains are.
fn is_feasible(changes: &[Change]) -> bool {
    let mut earliest = 0;
    for change in changes {
        if let Some(last) = change.last {
            earliest = earliest.max(change.first);
            if last < earliest {
                return false;
            }
        }
    }
    true
}

pub(crate) fn are_feasible(chains: &[Chain]) -> bool {
    for chain in chains {
        if !is_feasible(chain.changes.as_slice()) {
            return false;
        }
    }
    true
}

// Whether a change that must happen at the position or before it is among those from an index on. Where the changes can be
// placed in their order, those behind one that comes later need no look.
pub(crate) fn is_overdue(changes: &[Change], from: usize, position: u64) -> bool {
    for i in from..changes.len() {
        let change = changes[i];
        if let Some(last) = change.last {
            if last <= position {
                return true;
            }
            if position < change.first {
                return false;
            }
        }
    }
    false
}

fn push_lasts(positions: &mut Vec<u64>, changes: &[Change]) -> Result<(), Memory> {
    for change in changes {
        if let Some(last) = change.last {
            positions.push(last)?;
        }
    }
    Ok(())
}

fn sort_once(positions: &mut Vec<u64>) {
    positions.sort_unstable();
    positions.dedup();
}

// The last positions of the changes that have one, each once and in order.
pub(crate) fn last_positions(alloc: Global, chains: &[Chain]) -> Result<Vec<u64>, Memory> {
    let mut positions = Vec::new(alloc);
    for chain in chains {
        push_lasts(&mut positions, chain.changes.as_slice())?;
    }
    sort_once(&mut positions);
    Ok(positions)
}
