// Made by tools/plain_rust from crates/lease_manager/src/values/want.rt. Changes belong there.

use crate::proved::lease_manager::tables::summaries::LeaseRecord;
use crate::proved::lease_manager::values::key::LeaseName;
use crate::proved::lease_manager::values::number::FileNo;
use crate::proved::lease_state::{Access, LeaseState, Share};

/// What a request wants of the leases of other keys on its file (profile, except for handles:
/// MS-SMB2 3.3.4.7).
#[derive(Clone, Copy, Debug)]
pub enum Wish {
    /// Opens that conflict with this access and share are to give up their handles.
    NoHandles { access: Access, share: Share },
    /// Handles are no longer to be cached.
    AnyHandles,
    /// Writes are no longer to be cached.
    NoWrites,
    /// Nothing is to be cached any longer.
    Nothing,
}

impl Wish {
    /// What a state is lowered to.
    pub fn lowered(self, state: LeaseState) -> LeaseState {
        match self {
            Wish::NoHandles { .. } | Wish::AnyHandles => state.without_handle(),
            Wish::NoWrites => state.without_write(),
            Wish::Nothing => LeaseState::NONE,
        }
    }

    /// Whether a lease, which this is known of, holds what is wished to be given up.
    pub fn needs(self, known: &LeaseRecord) -> bool {
        let state = known.lease.state;
        match self {
            Wish::NoHandles { access, share } => known.tally.conflicts(access, share) && state.caches_handles(),
            Wish::AnyHandles => state.caches_handles(),
            Wish::NoWrites => state.caches_writes(),
            Wish::Nothing => state.holds_any(),
        }
    }
}

/// A wish of a request under this key, or under none, for its file.
#[derive(Debug)]
pub struct Demand {
    pub wish: Wish,
    pub own: Option<LeaseName>,
    pub file: FileNo,
}

/// A lease to be broken, and the state that it is to be lowered to.
#[derive(Debug)]
pub struct Want {
    pub key: LeaseName,
    pub lowered: LeaseState,
}
