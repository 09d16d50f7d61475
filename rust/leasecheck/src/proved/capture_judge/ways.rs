// Made by tools/plain_rust from crates/capture_judge/src/ways.rt. Changes belong there.

use std::prelude::Vec;

use crate::proved::capture_judge::bounds::is_overdue;
use crate::proved::capture_judge::charging::charge_after;
use crate::proved::capture_judge::values::{Chain, Change, Charge, Level, Step};
use smblease::proved::lease_state::Memory;
use std::alloc::Global;

/// How many ways to have placed the changes up to a position are kept at most.
pub const WAY_LIMIT: usize = 1024;

// How far each chain has come: 0 at its start, and one more than the index of its change that was placed last. The link counts
// the links of the trail up to the one of the last step.
pub(crate) struct Way {
    came: Vec<usize>,
    link: usize,
}

// A step, and the link of the way from which it was taken.
#[derive(Clone, Copy)]
struct Link {
    step: Step,
    before: usize,
}

pub(crate) struct Ways {
    pub(crate) ways: Vec<Way>,
    trail: Vec<Link>,
}

fn height(level: Level) -> u8 {
    match level {
        Level::Nothing => 0,
        Level::Something => 1,
        Level::Writes => 2,
    }
}

fn level_at(chain: &Chain, came: usize) -> u8 {
    if came == 0 {
        return 0;
    }
    match chain.changes.as_slice().get(came - 1) {
        Some(change) => height(change.level),
        None => 0,
    }
}

// Whether no chain of another client clashes with this one.
fn is_apart(chains: &[Chain], came: &[usize], chain: usize) -> bool {
    let client = chains[chain].client;
    let level = level_at(&chains[chain], came[chain]);
    for (i, other) in chains.iter().enumerate() {
        if other.client != client && level + level_at(other, came[i]) > 2 {
            return false;
        }
    }
    true
}

// Whether the change may happen at the position.
fn is_within(change: Change, position: u64) -> bool {
    match change.last {
        Some(last) => change.first <= position && position <= last,
        None => change.first <= position,
    }
}

// Whether the next change of the chain may happen at the position and doesn't raise its level.
fn is_fall(chain: &Chain, came: usize, position: u64) -> bool {
    match chain.changes.as_slice().get(came) {
        Some(change) => is_within(*change, position) && height(change.level) <= level_at(chain, came),
        None => false,
    }
}

// Whether some change from an index on may be the next one of its chain, and may have begun by the position.
fn may_go_on(changes: &[Change], from: usize, position: u64) -> bool {
    for i in from..changes.len() {
        let change = changes[i];
        if change.first <= position {
            return true;
        }
        if change.last.is_some() {
            return false;
        }
    }
    false
}

// Whether the step need be taken now: it doesn't raise the level of its chain, or it is due, or its chain may go on from there.
// A rise can wait until then.
fn is_worth(chain: &Chain, came: usize, step: Step) -> bool {
    let change = chain.changes[step.change];
    height(change.level) <= level_at(chain, came)
        || change.last == Some(step.position)
        || may_go_on(chain.changes.as_slice(), step.change + 1, step.position)
}

// A way in which no chain has begun.
fn start(alloc: Global, count: usize) -> Result<Way, Memory> {
    let mut came = Vec::new(alloc);
    for _i in 0..count {
        came.push(0)?;
    }
    Ok(Way { came, link: 0 })
}

// Without the ways that have left out a change that must have happened by now.
fn drop_late(ways: &mut Vec<Way>, chains: &[Chain], position: u64) {
    ways.retain(|way| !way.is_late(chains, position));
}

fn turn_around(steps: &mut Vec<Step>) {
    steps.as_mut_slice().reverse();
}

impl Way {
    fn after(&self, step: Step) -> Result<Vec<usize>, Memory> {
        let mut came = Vec::from_slice(*self.came.allocator(), self.came.as_slice())?;
        came[step.chain] = step.change + 1;
        Ok(came)
    }

    fn is_late(&self, chains: &[Chain], position: u64) -> bool {
        for (i, chain) in chains.iter().enumerate() {
            let from = self.came.as_slice().get(i).copied().unwrap_or(0);
            if is_overdue(chain.changes.as_slice(), from, position) {
                return true;
            }
        }
        false
    }
}

impl Ways {
    pub(crate) fn new(alloc: Global, count: usize) -> Result<Ways, Memory> {
        let mut ways = Vec::new(alloc);
        ways.push(start(alloc, count)?)?;
        Ok(Ways { ways, trail: Vec::new(alloc) })
    }

    fn holds(&self, came: &[usize]) -> bool {
        for way in &self.ways {
            if way.came.as_slice() == came {
                return true;
            }
        }
        false
    }

    // Keeps where a step leads that no way has come to. It is false where there is no room.
    fn keep(&mut self, way: usize, step: Step, came: Vec<usize>) -> Result<bool, Memory> {
        if self.ways.len() >= WAY_LIMIT {
            return Ok(false);
        }
        let before = self.ways[way].link;
        self.trail.push(Link { step, before })?;
        let link = self.trail.len();
        self.ways.push(Way { came, link })?;
        Ok(true)
    }

    // Takes the step from a way, where it can be taken and leads to another. It is false where that one finds no room.
    fn take(&mut self, chains: &[Chain], way: usize, step: Step) -> Result<bool, Memory> {
        if !is_within(chains[step.chain].changes[step.change], step.position) {
            return Ok(true);
        }
        if !is_worth(&chains[step.chain], self.ways[way].came[step.chain], step) {
            return Ok(true);
        }
        let came = self.ways[way].after(step)?;
        if !is_apart(chains, came.as_slice(), step.chain) || self.holds(came.as_slice()) {
            return Ok(true);
        }
        self.keep(way, step, came)
    }

    // Takes each step of a chain from a way. Changes that must happen aren't passed over.
    fn go_along(&mut self, chains: &[Chain], position: u64, way: usize, chain: usize) -> Result<bool, Memory> {
        let changes = chains[chain].changes.as_slice();
        for change in self.ways[way].came[chain]..changes.len() {
            let step = Step { position, chain, change };
            if !self.take(chains, way, step)? {
                return Ok(false);
            }
            if changes[change].last.is_some() {
                return Ok(true);
            }
        }
        Ok(true)
    }

    // A step from the way that doesn't raise the level of its chain, if there is one.
    fn next_fall(&self, chains: &[Chain], position: u64, way: usize) -> Option<Step> {
        let came = self.ways[way].came.as_slice();
        for (chain, one) in chains.iter().enumerate() {
            let change = came[chain];
            if is_fall(one, change, position) {
                return Some(Step { position, chain, change });
            }
        }
        None
    }

    // Takes a fall from the way, since that only helps, or where there is none each step.
    fn go_on(&mut self, chains: &[Chain], position: u64, way: usize) -> Result<bool, Memory> {
        if let Some(step) = self.next_fall(chains, position, way) {
            return self.take(chains, way, step);
        }
        for chain in 0..chains.len() {
            if !self.go_along(chains, position, way, chain)? {
                return Ok(false);
            }
        }
        Ok(true)
    }

    // Goes on from each way, and from the ways that these lead to as well. It is false where one finds no room.
    pub(crate) fn close(&mut self, chains: &[Chain], position: u64) -> Result<bool, Memory> {
        let mut way = 0;
        while way < self.ways.len() {
            if !self.go_on(chains, position, way)? {
                return Ok(false);
            }
            way += 1;
        }
        Ok(true)
    }

    // Whether each way has left out a change that must have happened by now.
    pub(crate) fn are_late(&self, chains: &[Chain], position: u64) -> bool {
        self.ways.iter().all(|way| way.is_late(chains, position))
    }

    pub(crate) fn drop_late(&mut self, chains: &[Chain], position: u64) {
        drop_late(&mut self.ways, chains, position);
    }

    // The steps that led to a way, in their order.
    pub(crate) fn steps_to(&self, alloc: Global, way: usize) -> Result<Vec<Step>, Memory> {
        let mut steps = Vec::new(alloc);
        let mut link = self.ways[way].link;
        while link > 0 {
            let Link { step, before } = self.trail[link - 1];
            steps.push(step)?;
            link = before;
        }
        turn_around(&mut steps);
        Ok(steps)
    }

    // The charge at a position, with the steps that led to the way that was found last, and after them all that must follow.
    pub(crate) fn charge(&self, alloc: Global, chains: &[Chain], position: u64) -> Result<Charge, Memory> {
        let last = self.ways.len() - 1;
        let steps = self.steps_to(alloc, last)?;
        let came = Vec::from_slice(alloc, self.ways[last].came.as_slice())?;
        charge_after(chains, position, came, steps)
    }
}
