// Made by tools/plain_rust from crates/lease_manager/src/tables/waiting.rt. Changes belong there.

use crate::proved::lease_manager::values::number::FileNo;
use crate::proved::lease_state::Memory;
use std::alloc::Global;
use std::collections::BTreeMap;

/// How many requests at the front of each file's queue are known to wait still.
// docs/DECISIONS.md: "A pass begins after the requests that still wait".
#[derive(Debug)]
pub struct Waiting {
    /// Of the files where some are.
    counts: BTreeMap<FileNo, usize>,
}

impl Waiting {
    /// Where none is known to. Allocates nothing.
    pub fn new(alloc: Global) -> Waiting {
        Waiting { counts: BTreeMap::new(alloc) }
    }

    /// How many of the file's are known to.
    pub fn count(&self, file: FileNo) -> usize {
        match self.counts.get(&file) {
            Some(count) => *count,
            None => 0,
        }
    }

    /// Whether none is known to.
    pub fn is_empty(&self) -> bool {
        self.counts.is_empty()
    }

    /// So many of the file's are known to.
    ///
    /// # Errors
    ///
    /// `Memory` where there is none left for the file's count; nothing has changed then.
    pub fn put(&mut self, file: FileNo, count: usize) -> Result<(), Memory> {
        self.counts.insert(file, count)?;
        Ok(())
    }

    /// None of the file's is known to.
    pub fn forget(&mut self, file: FileNo) {
        self.counts.remove(&file);
    }

    /// None is known to.
    pub fn clear(&mut self) {
        self.counts.clear();
    }
}
