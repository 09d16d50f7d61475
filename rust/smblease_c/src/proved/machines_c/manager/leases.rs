// Made by tools/plain_rust from crates/machines_c/src/manager/leases.rt. Changes belong there.

use crate::proved::machines_c::handles::{Outcome, write_id};
use crate::proved::machines_c::manager::handle::ManagerHandle;
use crate::proved::machines_c::values::{KeyBytes, MaybeKey};
use smblease::proved::lease_manager::{ClientNo, FileNo, HeldLease};
use smblease::proved::lease_state::{LeaseKey, LeaseState};
use std::alloc::Global;

/// A lease: `struct smblease_held_lease`.
#[repr(C)]
#[derive(Clone, Copy, Debug, PartialEq, Eq)]
pub struct LeaseFields {
    /// What it holds: the bits of LeaseState.
    pub state: u32,
    /// What it is broken to, where `breaking` is set.
    pub broken_to: u32,
    /// A break of it waits for its acknowledgment.
    pub breaking: u8,
    /// Room for later versions: 0.
    pub reserved: [u8; 23],
}

impl LeaseFields {
    // The fields that hold a lease.
    fn holding(lease: HeldLease) -> LeaseFields {
        let broken_to = match lease.broken_to {
            Some(state) => state.to_wire(),
            None => 0,
        };
        LeaseFields { state: lease.state.to_wire(), broken_to, breaking: u8::from(lease.broken_to.is_some()), reserved: [0; 23] }
    }
}

/// What may be granted to the client of the state that it wants: the bits of a LeaseState (profile).
/// 0 where there is no manager.
pub fn smblease_manager_allowed(
    alloc: Global,
    manager: &mut ManagerHandle,
    client: u64,
    key: &MaybeKey,
    file: u64,
    want: u32,
) -> u32 {
    match manager.take(alloc) {
        None => 0,
        Some(managing) => {
            let want = LeaseState::from_wire(want);
            let state = managing.manager.allowed(ClientNo(client), key.key(), FileNo(file), want);
            manager.put(alloc, managing);
            state.to_wire()
        }
    }
}

/// The lease of the client's key (3.3.1.12), into `lease`; that of a key that no open has holds
/// nothing.
///
/// Returns 0; 3 where there is no manager, and nothing is written.
pub fn smblease_manager_lease(
    alloc: Global,
    manager: &mut ManagerHandle,
    client: u64,
    key: &KeyBytes,
    lease: &mut LeaseFields,
) -> u32 {
    match manager.take(alloc) {
        None => Outcome::Nothing.code(),
        Some(managing) => {
            let key = LeaseKey(key.bytes);
            *lease = LeaseFields::holding(managing.manager.lease(ClientNo(client), key));
            manager.put(alloc, managing);
            Outcome::Done.code()
        }
    }
}

/// The FileId of the client's oldest durable open on the file that waits to be connected again
/// (profile), into `file_id`.
///
/// Returns 0; 3 where there is no manager; 4 where there is no such open. Then nothing is written.
pub fn smblease_manager_kept(alloc: Global, manager: &mut ManagerHandle, client: u64, file: u64, file_id: &mut u64) -> u32 {
    match manager.take(alloc) {
        None => Outcome::Nothing.code(),
        Some(managing) => {
            let kept = managing.manager.kept(ClientNo(client), FileNo(file));
            let outcome = write_id(kept, file_id);
            manager.put(alloc, managing);
            outcome.code()
        }
    }
}

/// The functions of this module for C.
pub mod exported {
    use super::{KeyBytes, LeaseFields, ManagerHandle, MaybeKey};

    /// [`super::smblease_manager_allowed`] for C.
    #[unsafe(no_mangle)]
    pub extern "C" fn smblease_manager_allowed(
        manager: &mut ManagerHandle,
        client: u64,
        key: &MaybeKey,
        file: u64,
        want: u32,
    ) -> u32 {
        super::smblease_manager_allowed(std::alloc::Global, manager, client, key, file, want)
    }

    /// [`super::smblease_manager_lease`] for C.
    #[unsafe(no_mangle)]
    pub extern "C" fn smblease_manager_lease(
        manager: &mut ManagerHandle,
        client: u64,
        key: &KeyBytes,
        lease: &mut LeaseFields,
    ) -> u32 {
        super::smblease_manager_lease(std::alloc::Global, manager, client, key, lease)
    }

    /// [`super::smblease_manager_kept`] for C.
    #[unsafe(no_mangle)]
    pub extern "C" fn smblease_manager_kept(manager: &mut ManagerHandle, client: u64, file: u64, file_id: &mut u64) -> u32 {
        super::smblease_manager_kept(std::alloc::Global, manager, client, file, file_id)
    }
}
