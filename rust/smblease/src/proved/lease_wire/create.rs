// Made by tools/plain_rust from crates/lease_wire/src/create.rt. Changes belong there.

use crate::proved::lease_state::{FileId, LeaseKey, LeaseState};

mod meaning;
mod reading;
mod text;
mod writing;

pub use meaning::Lease;
pub use reading::{ContextValues, read_create, read_create_reply};
pub use writing::{fill_create_ask, fill_create_reply, write_create_ask, write_create_reply};

/// What the create contexts of a CREATE request ask for (MS-SMB2 2.2.13.2).
#[derive(Clone, Copy, Debug, PartialEq, Eq)]
pub struct CreateAsk {
    /// `RqLs`: the lease key, and the state that is wanted, which may be one that is never granted.
    pub lease: Option<(LeaseKey, LeaseState)>,
    /// `DHnQ`: a durable open is asked for.
    pub durable: bool,
    /// `DHnC`: the durable open that is to be connected again.
    pub reconnect: Option<FileId>,
}

/// What the create contexts of a CREATE response grant (MS-SMB2 2.2.14.2).
#[derive(Clone, Copy, Debug, PartialEq, Eq)]
pub struct CreateAnswer {
    /// `RqLs`: the lease key, the state that the lease has, and whether a break of it is in
    /// progress.
    pub lease: Option<(LeaseKey, LeaseState, bool)>,
    /// `DHnQ`: the open is durable.
    pub durable: bool,
}

/// Whether create contexts are those of a CREATE request or of its response: contracts of the
/// readers and writers name it (profile).
// docs/DECISIONS.md: "One reader for requests and responses".
#[derive(Clone, Copy, Debug, PartialEq, Eq)]
pub enum Direction {
    Request,
    Reply,
}
