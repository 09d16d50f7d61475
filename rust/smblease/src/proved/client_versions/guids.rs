// Made by tools/plain_rust from crates/client_versions/src/guids.rt. Changes belong there.

use crate::proved::capture_wire::Guid;
use crate::proved::lease_state::{FileId, Memory};
use crate::proved::lease_wire_v2::DurableAnswer;
use std::alloc::Global;
use std::collections::BTreeMap;

fn is_second(durable: Option<DurableAnswer>) -> bool {
    matches!(durable, Some(DurableAnswer::Second(_)))
}

/// The CreateGuids of durable opens of version 2, by the FileIds of the opens (MS-SMB2 3.2.1.6).
#[derive(Debug)]
pub struct Guids {
    by_number: BTreeMap<u64, Guid>,
}

impl Guids {
    /// None. Allocates nothing.
    pub fn new(alloc: Global) -> Guids {
        Guids { by_number: BTreeMap::new(alloc) }
    }

    /// The CreateGuid of the open of this FileId.
    pub fn guid(&self, file_id: FileId) -> Option<Guid> {
        self.by_number.get(&file_id.0).copied()
    }

    /// A create that was asked for under this guid is answered by an open of this FileId, which is durable or isn't.
    ///
    /// # Errors
    ///
    /// `Memory` where the open is durable by `DH2Q`, and no memory is left; nothing has changed then.
    pub fn answered(&mut self, file_id: FileId, guid: Guid, durable: Option<DurableAnswer>) -> Result<(), Memory> {
        if !is_second(durable) {
            return Ok(());
        }
        self.by_number.insert(file_id.0, guid)?;
        Ok(())
    }

    /// There is no CreateGuid of this FileId any longer.
    pub fn remove(&mut self, file_id: FileId) {
        self.by_number.remove(&file_id.0);
    }

    // The CreateGuid of this FileId, which has one, is this one from now on.
    fn set(&mut self, file_id: FileId, guid: Guid) {
        if let Some(kept) = self.by_number.get_mut(&file_id.0) {
            *kept = guid;
        }
    }

    /// The CreateGuid of this FileId is the one that it was before an answer that isn't taken after all.
    pub fn set_back(&mut self, file_id: FileId, before: Option<Guid>) {
        match before {
            Some(guid) => self.set(file_id, guid),
            None => self.remove(file_id),
        }
    }
}
