// Made by tools/plain_rust from crates/machines_c/src/manager/values.rt. Changes belong there.

use smblease::proved::lease_manager::CreateAsk;
use smblease::proved::lease_state::{FileId, LeaseKey, LeaseState};

/// What the create contexts of a CREATE request ask for: `struct smblease_create_ask`.
#[repr(C)]
#[derive(Clone, Copy, Debug, PartialEq, Eq)]
pub struct CreateFields {
    /// The lease key, where `has_lease` is set.
    pub key: [u8; 16],
    /// The durable open that is to be connected again, where `has_reconnect` is set.
    pub file_id: u64,
    /// The state that is wanted, where `has_lease` is set: the bits of LeaseState.
    pub state: u32,
    /// A lease is asked for.
    pub has_lease: u8,
    /// A durable open is asked for.
    pub durable: u8,
    /// A durable open is to be connected again.
    pub has_reconnect: u8,
    /// A lease of version 2 is asked for: passed over.
    pub has_other_lease: u8,
    /// Left 0, for what later versions may read.
    pub reserved: [u64; 6],
}

impl CreateFields {
    /// What the fields ask for.
    pub(crate) fn ask(&self) -> CreateAsk {
        CreateAsk {
            lease: if self.has_lease != 0 { Some((LeaseKey(self.key), LeaseState::from_wire(self.state))) } else { None },
            durable: self.durable != 0,
            reconnect: if self.has_reconnect != 0 { Some(FileId(self.file_id)) } else { None },
        }
    }
}

/// A lease break acknowledgment: `struct smblease_acknowledgment`.
#[repr(C)]
#[derive(Clone, Copy, Debug, PartialEq, Eq)]
pub struct AckFields {
    pub key: [u8; 16],
    /// The state that the client keeps: the bits of LeaseState.
    pub state: u32,
    /// Left 0, for what later versions may read.
    pub reserved: [u8; 12],
}
