// Made by tools/plain_rust from crates/machines_c/src/manager/listed_leases.rt. Changes belong there.

use crate::proved::machines_c::handles::Outcome;
use crate::proved::machines_c::manager::handle::ManagerHandle;
use crate::proved::machines_c::manager::listed::Listing;
use smblease::proved::lease_manager::ListedLease;
use std::alloc::Global;

/// A lease: `struct smblease_listed_lease`.
#[repr(C)]
#[derive(Clone, Copy, Debug, PartialEq, Eq)]
pub struct ListedLeaseFields {
    /// The number of its client.
    pub client: u64,
    /// The number of the file that its opens are on.
    pub file: u64,
    /// How many opens it has.
    pub opens: u64,
    /// Its key, which is the client's.
    pub key: [u8; 16],
    /// What it holds: the bits of LeaseState.
    pub state: u32,
    /// What it is broken to, where `breaking` is set.
    pub broken_to: u32,
    /// A break of it waits for its acknowledgment.
    pub breaking: u8,
    /// Room for later versions: 0.
    pub reserved: [u8; 31],
}

impl ListedLeaseFields {
    // The fields that hold a lease.
    fn holding(one: &ListedLease) -> ListedLeaseFields {
        let broken_to = match one.broken_to {
            Some(state) => state.to_wire(),
            None => 0,
        };
        let key = one.key.0;
        ListedLeaseFields {
            client: one.client.0,
            file: one.file.0,
            opens: one.opens,
            key,
            state: one.state.to_wire(),
            broken_to,
            breaking: u8::from(one.broken_to.is_some()),
            reserved: [0; 31],
        }
    }
}

/// Lists all leases as they stand (3.3.1.12), in order of their clients' numbers, then of their keys' bytes. What the
/// last call decided stays.
///
/// Returns 0; 1 where there is no memory for the list, and nothing changed; 3 where there is no
/// manager.
pub fn smblease_manager_list_leases(alloc: Global, manager: &mut ManagerHandle) -> u32 {
    manager.list(alloc, Listing::Leases).code()
}

// Writes the lease at the index into `out`.
fn tell(leases: &[ListedLease], index: usize, out: &mut ListedLeaseFields) -> Outcome {
    match leases.get(index) {
        Some(one) => {
            *out = ListedLeaseFields::holding(one);
            Outcome::Done
        }
        None => Outcome::NoSuch,
    }
}

/// The lease that was listed at this index, from 0.
///
/// Returns 0; 3 where there is no manager; 4 where nothing has the index, or a call of the manager
/// came since the leases were listed. Then nothing is written.
pub fn smblease_manager_listed_lease_at(
    alloc: Global,
    manager: &mut ManagerHandle,
    index: usize,
    out: &mut ListedLeaseFields,
) -> u32 {
    match manager.take(alloc) {
        None => Outcome::Nothing.code(),
        Some(managing) => {
            let outcome = tell(managing.listed.leases.as_slice(), index, out);
            manager.put(alloc, managing);
            outcome.code()
        }
    }
}

/// The functions of this module for C.
pub mod exported {
    use super::{ListedLeaseFields, ManagerHandle};

    /// [`super::smblease_manager_list_leases`] for C.
    #[unsafe(no_mangle)]
    pub extern "C" fn smblease_manager_list_leases(manager: &mut ManagerHandle) -> u32 {
        super::smblease_manager_list_leases(std::alloc::Global, manager)
    }

    /// [`super::smblease_manager_listed_lease_at`] for C.
    #[unsafe(no_mangle)]
    pub extern "C" fn smblease_manager_listed_lease_at(
        manager: &mut ManagerHandle,
        index: usize,
        out: &mut ListedLeaseFields,
    ) -> u32 {
        super::smblease_manager_listed_lease_at(std::alloc::Global, manager, index, out)
    }
}
