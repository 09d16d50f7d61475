// Made by tools/plain_rust from crates/capture_judge/src/levels.rt. Changes belong there.

use std::prelude::Vec;

use crate::proved::capture_judge::values::{Chain, Level, Step};
use smblease::proved::lease_state::Memory;
use std::alloc::Global;

fn higher(one: Level, other: Level) -> Level {
    match (one, other) {
        (Level::Writes, _) | (_, Level::Nothing) => one,
        (Level::Something, Level::Something) => one,
        _ => other,
    }
}

// The level of a chain whose change was placed last.
fn level_by(chain: &Chain, last: Option<usize>) -> Level {
    let Some(change) = last else {
        return Level::Nothing;
    };
    match chain.changes.as_slice().get(change) {
        Some(change) => change.level,
        None => Level::Nothing,
    }
}

// The highest level of a client's chains.
fn highest(chains: &[Chain], came: &[Option<usize>], client: u64) -> Level {
    let mut level = Level::Nothing;
    for (index, chain) in chains.iter().enumerate() {
        if chain.client == client {
            level = higher(level, level_by(chain, came[index]));
        }
    }
    level
}

fn start(alloc: Global, count: usize) -> Result<Vec<Option<usize>>, Memory> {
    let mut came = Vec::new(alloc);
    for _i in 0..count {
        came.push(None)?;
    }
    Ok(came)
}

// Takes note of a step.
fn note_step(came: &mut Vec<Option<usize>>, step: Step) {
    if step.chain < came.len() {
        came[step.chain] = Some(step.change);
    }
}

// What a step's client caches after it.
fn level_after(chains: &[Chain], came: &[Option<usize>], step: Step) -> Level {
    match chains.get(step.chain) {
        Some(chain) => highest(chains, came, chain.client),
        None => Level::Nothing,
    }
}

/// What the client of each step caches after it, whichever of its chains lets it: one level for each step, in their order. The
/// steps are those of a placement of the chains; a step of no chain counts as one after which nothing is cached.
///
/// # Errors
///
/// `Memory` where there is none left.
pub fn levels_after(alloc: Global, chains: &[Chain], steps: &[Step]) -> Result<Vec<Level>, Memory> {
    let mut came = start(alloc, chains.len())?;
    let mut levels = Vec::new(alloc);
    for step in steps {
        note_step(&mut came, *step);
        levels.push(level_after(chains, came.as_slice(), *step))?;
    }
    Ok(levels)
}
