// Made by tools/plain_rust from crates/machines_c/src/manager/giving_up.rt. Changes belong there.

use crate::proved::machines_c::handles::{Outcome, extent_of};
use crate::proved::machines_c::manager::coming::Coming;
use crate::proved::machines_c::manager::handle::ManagerHandle;
use crate::proved::machines_c::values::MaybeKey;
use smblease::proved::lease_manager::{ClientNo, FileNo};
use std::alloc::Global;

/// Other keys on a file than this one of the client's give up handles (1), or all that they cache (2); with no key each gives up
/// (own).
///
/// Returns 0; 4 where the extent stands for nothing: then nothing changed; 2 where memory ran out, and the manager is lost; 3
/// where there is none.
pub fn smblease_manager_give_up(
    alloc: Global,
    manager: &mut ManagerHandle,
    client: u64,
    key: &MaybeKey,
    file: u64,
    extent: u32,
) -> u32 {
    match extent_of(extent) {
        Some(extent) => manager.call(alloc, Coming::GivesUp(ClientNo(client), key.key(), FileNo(file), extent)).code(),
        None => Outcome::NoSuch.code(),
    }
}

/// 1 where no other key on the file than this one of the client's holds handles (1), or is in the way of a change (2), and else
/// 0; with no key each other key counts (own). 0 where the extent stands for nothing.
pub fn smblease_manager_given_up(
    alloc: Global,
    manager: &mut ManagerHandle,
    client: u64,
    key: &MaybeKey,
    file: u64,
    extent: u32,
) -> u32 {
    let Some(extent) = extent_of(extent) else {
        return 0;
    };
    match manager.take(alloc) {
        None => 0,
        Some(managing) => {
            let is_given_up = managing.manager.is_given_up(ClientNo(client), key.key(), FileNo(file), extent);
            manager.put(alloc, managing);
            u32::from(is_given_up)
        }
    }
}

/// The functions of this module for C.
pub mod exported {
    use super::{ManagerHandle, MaybeKey};

    /// [`super::smblease_manager_give_up`] for C.
    #[unsafe(no_mangle)]
    pub extern "C" fn smblease_manager_give_up(
        manager: &mut ManagerHandle,
        client: u64,
        key: &MaybeKey,
        file: u64,
        extent: u32,
    ) -> u32 {
        super::smblease_manager_give_up(std::alloc::Global, manager, client, key, file, extent)
    }

    /// [`super::smblease_manager_given_up`] for C.
    #[unsafe(no_mangle)]
    pub extern "C" fn smblease_manager_given_up(
        manager: &mut ManagerHandle,
        client: u64,
        key: &MaybeKey,
        file: u64,
        extent: u32,
    ) -> u32 {
        super::smblease_manager_given_up(std::alloc::Global, manager, client, key, file, extent)
    }
}
