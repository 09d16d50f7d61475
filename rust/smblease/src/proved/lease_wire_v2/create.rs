// Made by tools/plain_rust from crates/lease_wire_v2/src/create.rt. Changes belong there.

use crate::proved::capture_wire::{DurableReconnectV2, DurableRequestV2, DurableResponseV2};
use crate::proved::lease_state::{FileId, LeaseKey, LeaseState};
use crate::proved::lease_wire::CreateAsk;

mod meaning;
mod reading;
mod text;
mod writing;

pub use reading::{read_create_reply_v2, read_create_v2};
pub use text::CONTEXTS_LIMIT;
pub use writing::{fill_create_ask_v2, fill_create_reply_v2, write_create_ask_v2, write_create_reply_v2};

/// What version 2 adds to a lease context (MS-SMB2 2.2.13.2.10, 2.2.14.2.11).
#[derive(Clone, Copy, Debug, PartialEq, Eq)]
pub struct SecondVersion {
    /// ParentLeaseKey, where SMB2_LEASE_FLAG_PARENT_LEASE_KEY_SET says that it is set: the key of the parent folder's lease.
    pub parent: Option<LeaseKey>,
    /// In a request the epoch that the client knows, in a response that of the lease.
    pub epoch: u16,
}

/// `RqLs` of a request, of either version.
#[derive(Clone, Copy, Debug, PartialEq, Eq)]
pub struct LeaseAsk {
    pub key: LeaseKey,
    /// The state that is wanted, which may be one that is never granted.
    pub state: LeaseState,
    /// What version 2 adds; `None` where the context is of version 1.
    pub second: Option<SecondVersion>,
}

/// `RqLs` of a response, of either version.
#[derive(Clone, Copy, Debug, PartialEq, Eq)]
pub struct LeaseAnswer {
    pub key: LeaseKey,
    /// The state that the lease has.
    pub state: LeaseState,
    /// SMB2_LEASE_FLAG_BREAK_IN_PROGRESS: a break of the lease is in progress.
    pub breaking: bool,
    /// What version 2 adds; `None` where the context is of version 1.
    pub second: Option<SecondVersion>,
}

/// A durable open that is asked for.
#[derive(Clone, Copy, Debug, PartialEq, Eq)]
pub enum DurableAsk {
    /// `DHnQ`
    First,
    /// `DH2Q`
    Second(DurableRequestV2),
}

/// A durable open that is granted.
#[derive(Clone, Copy, Debug, PartialEq, Eq)]
pub enum DurableAnswer {
    /// `DHnQ`
    First,
    /// `DH2Q`
    Second(DurableResponseV2),
}

/// A durable open that is to be connected again.
#[derive(Clone, Copy, Debug, PartialEq, Eq)]
pub enum Reconnect {
    /// `DHnC`: the FileId's Persistent part.
    First(FileId),
    /// `DH2C`
    Second(DurableReconnectV2),
}

/// What the create contexts of a CREATE request ask for, in either version (MS-SMB2 2.2.13.2).
#[derive(Clone, Copy, Debug, PartialEq, Eq)]
pub struct CreateAskV2 {
    pub lease: Option<LeaseAsk>,
    pub durable: Option<DurableAsk>,
    pub reconnect: Option<Reconnect>,
}

/// What the create contexts of a CREATE response grant, in either version (MS-SMB2 2.2.14.2).
#[derive(Clone, Copy, Debug, PartialEq, Eq)]
pub struct CreateAnswerV2 {
    pub lease: Option<LeaseAnswer>,
    pub durable: Option<DurableAnswer>,
}

impl Reconnect {
    /// The open that is to be connected again: the FileId's Persistent part.
    pub fn file_id(self) -> FileId {
        match self {
            Reconnect::First(file_id) => file_id,
            Reconnect::Second(reconnect) => FileId(reconnect.file_id.persistent),
        }
    }
}

impl CreateAskV2 {
    /// Whether its durable contexts may stand together: there is one at most, or `DHnQ` with `DHnC` (MS-SMB2 3.3.5.9.7).
    /// [`read_create_v2`] refuses the others.
    pub fn goes_together(&self) -> bool {
        match (self.durable, self.reconnect) {
            (Some(DurableAsk::First), Some(Reconnect::First(_))) => true,
            (Some(_), Some(_)) => false,
            _ => true,
        }
    }

    /// What a lease manager takes: the same request without what version 2 adds, which decides nothing of who may cache
    /// what.
    pub fn plain(&self) -> CreateAsk {
        CreateAsk { lease: plain_lease(self.lease), durable: self.durable.is_some(), reconnect: plain_reconnect(self.reconnect) }
    }
}

fn plain_lease(lease: Option<LeaseAsk>) -> Option<(LeaseKey, LeaseState)> {
    match lease {
        Some(lease) => Some((lease.key, lease.state)),
        None => None,
    }
}

fn plain_reconnect(reconnect: Option<Reconnect>) -> Option<FileId> {
    match reconnect {
        Some(reconnect) => Some(reconnect.file_id()),
        None => None,
    }
}
