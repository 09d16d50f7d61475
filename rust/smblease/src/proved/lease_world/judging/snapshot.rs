// Made by tools/plain_rust from crates/lease_world/src/judging/snapshot.rt. Changes belong there.

use std::prelude::Vec;

use crate::proved::lease_state::{Bytes, Memory};
use crate::proved::lease_world::judging::file::Change;

/// The bytes of a file, with how many patches of a list were put onto them.
#[derive(Debug)]
pub struct Snapshot {
    bytes: Vec<u8>,
    applied: usize,
}

impl Snapshot {
    /// These bytes, with no patch, in memory of their own.
    ///
    /// # Errors
    ///
    /// `Memory` where there is none left.
    pub fn of(bytes: &Bytes) -> Result<Snapshot, Memory> {
        Ok(Snapshot { bytes: bytes.try_copy()?.into_vec(), applied: 0 })
    }

    /// The bytes, with the patches.
    pub fn bytes(&self) -> &[u8] {
        self.bytes.as_slice()
    }

    /// How many patches were put onto it.
    pub fn applied(&self) -> usize {
        self.applied
    }

    /// An equal snapshot in memory of its own.
    ///
    /// # Errors
    ///
    /// `Memory` where there is none left.
    pub fn try_copy(&self) -> Result<Snapshot, Memory> {
        Ok(Snapshot { bytes: Vec::from_slice(*self.bytes.allocator(), self.bytes.as_slice())?, applied: self.applied })
    }

    /// With the patch of one change more.
    ///
    /// # Errors
    ///
    /// `Memory` where the bytes grow and there is none left.
    pub fn put(&mut self, change: &Change) -> Result<(), Memory> {
        change.patch.apply(&mut self.bytes)?;
        self.applied += 1;
        Ok(())
    }

    /// With the patches of the changes that follow, as long as they stand before the place.
    ///
    /// # Errors
    ///
    /// `Memory` where the bytes grow and there is none left.
    pub fn moved(self, changes: &[Change], place: u64) -> Result<Snapshot, Memory> {
        let Snapshot { mut bytes, mut applied } = self;
        while applied < changes.len() {
            let change = &changes[applied];
            if change.place >= place {
                break;
            }
            change.patch.apply(&mut bytes)?;
            applied += 1;
        }
        Ok(Snapshot { bytes, applied })
    }
}
