// Made by tools/plain_rust from crates/lease_manager/src/values/kept.rt. Changes belong there.

use crate::proved::lease_manager::values::key::LeaseName;
use crate::proved::lease_manager::values::lease::HeldLease;
use crate::proved::lease_manager::values::number::{ClientNo, FileNo};
use crate::proved::lease_manager::values::open::OpenEntry;
use crate::proved::lease_state::{Access, FileId, LeaseKey, LeaseState, Share};

/// A durable open that waits for its client, or would were its client cut, with what its lease holds: what a host keeps of it
/// over a restart of its own (MS-SMB2 3.3.1.10, 3.3.1.12).
#[derive(Clone, Copy, Debug, PartialEq, Eq)]
pub struct KeptOpen {
    /// Its FileId.
    pub file_id: FileId,
    /// Its client.
    pub client: ClientNo,
    /// Its file.
    pub file: FileNo,
    /// The key of its lease, which is its client's.
    pub key: LeaseKey,
    /// What it may do.
    pub access: Access,
    /// What it lets others do.
    pub share: Share,
    /// What its lease holds.
    pub state: LeaseState,
}

impl KeptOpen {
    /// The key of its lease.
    pub(crate) fn name(self) -> LeaseName {
        LeaseName { client: self.client, bytes: self.key }
    }

    /// Its lease, which isn't breaking.
    pub(crate) fn lease(self) -> HeldLease {
        HeldLease { state: self.state, broken_to: None }
    }

    /// The open, as if its client were connected.
    pub(crate) fn entry(self) -> OpenEntry {
        OpenEntry {
            file_id: self.file_id,
            client: self.client,
            file: self.file,
            lease_key: Some(self.key),
            access: self.access,
            share: self.share,
            durable: true,
            connected: true,
        }
    }
}
