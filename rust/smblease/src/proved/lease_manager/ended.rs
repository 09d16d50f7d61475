// Made by tools/plain_rust from crates/lease_manager/src/ended.rt. Changes belong there.

use crate::proved::lease_manager::told::Told;
use crate::proved::lease_state::{FileId, Memory};
use std::alloc::Global;
use std::collections::BTreeSet;

/// The FileIds of the opens that a try of a request ended, in their order.
#[derive(Debug)]
pub struct Ended {
    ids: BTreeSet<FileId>,
}

impl Ended {
    /// None ended. Allocates nothing.
    pub fn new(alloc: Global) -> Ended {
        Ended { ids: BTreeSet::new(alloc) }
    }

    /// These ended too.
    ///
    /// # Errors
    ///
    /// `Memory` where there is none left for them.
    pub fn add_all(&mut self, ids: &[FileId]) -> Result<(), Memory> {
        for id in ids {
            self.add(*id)?;
        }
        Ok(())
    }

    fn add(&mut self, id: FileId) -> Result<(), Memory> {
        self.ids.insert(id)?;
        Ok(())
    }

    /// A decision for each.
    ///
    /// # Errors
    ///
    /// `Memory` where there is none left for it.
    pub fn tell(&self, told: &mut Told) -> Result<(), Memory> {
        for id in &self.ids {
            told.ended(*id)?;
        }
        Ok(())
    }
}
