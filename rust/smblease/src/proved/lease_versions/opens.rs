// Made by tools/plain_rust from crates/lease_versions/src/opens.rt. Changes belong there.

use crate::proved::capture_wire::Guid;
use crate::proved::lease_manager::ClientNo;
use crate::proved::lease_state::{FileId, LeaseKey, Memory};
use std::alloc::Global;
use std::collections::BTreeMap;

/// What is known of an open.
#[derive(Clone, Copy, Debug, PartialEq, Eq)]
pub struct Open {
    /// Its client.
    pub client: ClientNo,
    /// The key of its lease.
    pub key: Option<LeaseKey>,
    /// Its CreateGuid, where it is a durable open of version 2.
    pub guid: Option<Guid>,
}

/// The opens by their FileIds.
#[derive(Debug)]
pub struct Opens {
    by_number: BTreeMap<u64, Open>,
}

impl Opens {
    /// None. Allocates nothing.
    pub fn new(alloc: Global) -> Opens {
        Opens { by_number: BTreeMap::new(alloc) }
    }

    /// The open of this FileId.
    pub fn open(&self, file_id: FileId) -> Option<Open> {
        self.by_number.get(&file_id.0).copied()
    }

    /// Whether there is an open of this FileId.
    pub fn has(&self, file_id: FileId) -> bool {
        self.by_number.get(&file_id.0).is_some()
    }

    /// This is the open of this FileId, if there is none.
    ///
    /// # Errors
    ///
    /// `Memory` where there is none left; nothing has changed then.
    pub fn note(&mut self, file_id: FileId, one: Open) -> Result<(), Memory> {
        if self.has(file_id) {
            return Ok(());
        }
        self.by_number.insert(file_id.0, one)?;
        Ok(())
    }

    /// There is no open of this FileId any longer.
    pub fn remove(&mut self, file_id: FileId) {
        self.by_number.remove(&file_id.0);
    }

    // Whether this FileId is that of an open of the client under this CreateGuid.
    fn is_under(&self, file_id: u64, client: ClientNo, guid: Guid) -> bool {
        match self.open(FileId(file_id)) {
            Some(one) => one.client == client && one.guid == Some(guid),
            None => false,
        }
    }

    /// The open of the client under this CreateGuid.
    pub fn under(&self, client: ClientNo, guid: Guid) -> Option<FileId> {
        for file_id in self.by_number.keys() {
            if self.is_under(*file_id, client, guid) {
                return Some(FileId(*file_id));
            }
        }
        None
    }
}
