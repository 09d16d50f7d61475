// Made by tools/plain_rust from crates/capture_judge/src/judging.rt. Changes belong there.

use crate::proved::capture_judge::bounds::{are_feasible, last_positions};
use crate::proved::capture_judge::values::{Chain, Placing};
use crate::proved::capture_judge::ways::Ways;
use smblease::proved::lease_state::Memory;
use std::alloc::Global;

/// The verdict on the chains of a file: whether their changes can be placed within their bounds so that no two clients clash
/// after any of them. There is no order between changes of different chains but that of positions, and positions are whatever
/// numbers grow with time.
///
/// Fails where there is no memory.
pub fn judge_placing(alloc: Global, chains: &[Chain]) -> Result<Placing, Memory> {
    if !are_feasible(chains) {
        return Ok(Placing::Contradictory);
    }
    let positions = last_positions(alloc, chains)?;
    let mut ways = Ways::new(alloc, chains.len())?;
    for position in &positions {
        if !ways.close(chains, *position)? {
            return Ok(Placing::TooMany);
        }
        if ways.are_late(chains, *position) {
            return Ok(Placing::Unsafe(ways.charge(alloc, chains, *position)?));
        }
        ways.drop_late(chains, *position);
    }
    Ok(Placing::Clean(ways.steps_to(alloc, 0)?))
}
