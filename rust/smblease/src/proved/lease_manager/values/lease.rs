// Made by tools/plain_rust from crates/lease_manager/src/values/lease.rt. Changes belong there.

use crate::proved::lease_state::LeaseState;

/// A lease (MS-SMB2 3.3.1.12): its state and, while it is breaking, the state that it is broken to.
#[derive(Clone, Copy, Debug)]
pub struct HeldLease {
    /// What it holds.
    pub state: LeaseState,
    /// While a break waits for its acknowledgment: what it is to hold.
    pub broken_to: Option<LeaseState>,
}

impl HeldLease {
    /// What a key without an open has.
    pub(crate) fn none() -> HeldLease {
        HeldLease { state: LeaseState::NONE, broken_to: None }
    }

    /// Whether a break of the lease waits for its acknowledgment.
    pub fn is_breaking(self) -> bool {
        self.broken_to.is_some()
    }
}
