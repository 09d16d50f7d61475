// Made by tools/plain_rust from crates/lease_world/src/judging/cache.rt. Changes belong there.

use std::prelude::Vec;

use crate::proved::lease_state::{LeaseState, Memory, Patch};
use crate::proved::lease_world::judging::covers::Covers;
use crate::proved::lease_world::judging::file::FileSeen;
use crate::proved::lease_world::judging::numbers::Numbers;
use crate::proved::lease_world::judging::snapshot::Snapshot;
use std::alloc::Global;

/// A write that may be unanswered.
#[derive(Debug)]
pub struct Waiting {
    pub number: u64,
    pub patch: Patch,
}

/// What a judge keeps of a client and a file. The file as it stood at a sending place is moved forward by the changes in
/// between. The client's writes cover positions of it once a read of the client is looked at.
#[derive(Debug)]
pub struct CacheSeen {
    belief: LeaseState,
    /// The client's writes on the file since a read was looked at last, in order.
    fresh: Vec<Waiting>,
    /// The earlier ones, without some that are settled.
    covers: Covers,
    base: Option<Snapshot>,
}

impl CacheSeen {
    /// Of a client and a file of which nothing is known. Allocates nothing.
    pub fn new(alloc: Global) -> CacheSeen {
        CacheSeen { belief: LeaseState::NONE, fresh: Vec::new(alloc), covers: Covers::new(alloc), base: None }
    }

    /// What the client believes of the file's lease.
    pub fn belief(&self) -> LeaseState {
        self.belief
    }

    /// The client believes this from now on.
    pub fn believe(&mut self, state: LeaseState) {
        self.belief = state;
    }

    /// The client is given a write, which isn't settled.
    ///
    /// # Errors
    ///
    /// `Memory` where there is none left for the list of writes.
    pub fn write(&mut self, number: u64, patch: Patch) -> Result<(), Memory> {
        self.fresh.push(Waiting { number, patch })?;
        Ok(())
    }

    /// Whether the client sees these bytes: the file as it stood before the place, with the client's unanswered writes.
    ///
    /// # Errors
    ///
    /// `Memory` where there is none left for what the client sees.
    pub fn shows(&mut self, file: &mut FileSeen, place: u64, settled: &Numbers, bytes: &[u8]) -> Result<bool, Memory> {
        self.cover(settled)?;
        let base = base_at(self.base.take(), file, place)?;
        let same = self.covers.shows(base.bytes(), bytes);
        self.base = Some(base);
        Ok(same)
    }

    // The client's writes that aren't settled cover the file, the last on top.
    fn cover(&mut self, settled: &Numbers) -> Result<(), Memory> {
        lay_open(&mut self.covers, &self.fresh, settled)?;
        self.fresh.clear();
        self.covers.uncover(settled);
        Ok(())
    }
}

// The file at the place, from where it was kept, or from a mark where that is far away.
fn base_at(kept: Option<Snapshot>, file: &mut FileSeen, place: u64) -> Result<Snapshot, Memory> {
    let base = match kept {
        Some(base) => base,
        None => file.first()?,
    };
    file.nearer(base, place)?.moved(file.changes(), place)
}

// The writes that aren't settled cover the file, in order.
fn lay_open(covers: &mut Covers, fresh: &[Waiting], settled: &Numbers) -> Result<(), Memory> {
    for write in fresh {
        if !settled.contains(write.number) {
            covers.lay(write.number, &write.patch)?;
        }
    }
    Ok(())
}
