// Made by tools/plain_rust from crates/machines_c/src/manager/calls.rt. Changes belong there.

use std::prelude::Box;

use crate::proved::machines_c::handles::Outcome;
use crate::proved::machines_c::manager::coming::Coming;
use crate::proved::machines_c::manager::handle::ManagerHandle;
use crate::proved::machines_c::manager::managing::Managing;
use crate::proved::machines_c::values::KeyBytes;
use smblease::proved::break_timers::BreakNo;
use smblease::proved::lease_manager::{ClientNo, FileNo, Tag};
use smblease::proved::lease_state::{FileId, LeaseKey, Memory};
use std::alloc::Global;

impl ManagerHandle {
    // What a call came to is held from now on; where it ran out of memory nothing is.
    pub(crate) fn keep(&mut self, alloc: Global, managing: Box<Managing>, came: Result<(), Memory>) -> Outcome {
        match came {
            Ok(()) => {
                self.put(alloc, managing);
                Outcome::Done
            }
            Err(_) => Outcome::Lost,
        }
    }

    /// Something comes to the manager that is held.
    pub(crate) fn call(&mut self, alloc: Global, coming: Coming) -> Outcome {
        match self.take(alloc) {
            None => Outcome::Nothing,
            Some(mut managing) => {
                let came = managing.call(alloc, coming);
                self.keep(alloc, managing, came)
            }
        }
    }
}

/// A client connects (MS-SMB2 3.3.5.1). Where it is connected nothing changes.
///
/// Returns 0; 2 where memory ran out, and the manager is lost, which is never where nothing
/// changes; 3 where there is none.
pub fn smblease_manager_join(alloc: Global, manager: &mut ManagerHandle, client: u64) -> u32 {
    manager.call(alloc, Coming::Joins(ClientNo(client))).code()
}

/// A client's connection is lost (3.3.7.1). Where it isn't connected nothing changes. The outcomes
/// are those of `smblease_manager_join`.
pub fn smblease_manager_cut(alloc: Global, manager: &mut ManagerHandle, client: u64) -> u32 {
    manager.call(alloc, Coming::IsCut(ClientNo(client))).code()
}

/// The timer of the break of a client's lease runs out (3.3.6.5). Where no break of it waits for its
/// acknowledgment nothing changes. The outcomes are those of `smblease_manager_join`.
pub fn smblease_manager_expire(alloc: Global, manager: &mut ManagerHandle, client: u64, key: &KeyBytes) -> u32 {
    manager.call(alloc, Coming::Expires(ClientNo(client), LeaseKey(key.bytes))).code()
}

/// The timer of this number, of a break, runs out (3.3.6.5). Where it doesn't run, or no break of
/// its lease waits for its acknowledgment, nothing changes but that it doesn't run any longer. The
/// outcomes are those of `smblease_manager_join`.
pub fn smblease_manager_run_out(alloc: Global, manager: &mut ManagerHandle, number: u64) -> u32 {
    manager.call(alloc, Coming::RunsOut(BreakNo(number))).code()
}

/// The timer of a durable open runs out (3.3.6.2). Where no such open waits for its client nothing
/// changes. The outcomes are those of `smblease_manager_join`.
pub fn smblease_manager_scavenge(alloc: Global, manager: &mut ManagerHandle, file_id: u64) -> u32 {
    manager.call(alloc, Coming::Scavenges(FileId(file_id))).code()
}

/// A request or a change of a client that waits on the file under the tag is taken back (3.3.5.16). Where
/// none waits nothing changes. The outcomes are those of `smblease_manager_join`.
pub fn smblease_manager_withdraw(alloc: Global, manager: &mut ManagerHandle, client: u64, tag: u64, file: u64) -> u32 {
    manager.call(alloc, Coming::Withdraws(FileNo(file), ClientNo(client), Tag(tag))).code()
}

/// The functions of this module for C.
pub mod exported {
    use super::{KeyBytes, ManagerHandle};

    /// [`super::smblease_manager_join`] for C.
    #[unsafe(no_mangle)]
    pub extern "C" fn smblease_manager_join(manager: &mut ManagerHandle, client: u64) -> u32 {
        super::smblease_manager_join(std::alloc::Global, manager, client)
    }

    /// [`super::smblease_manager_cut`] for C.
    #[unsafe(no_mangle)]
    pub extern "C" fn smblease_manager_cut(manager: &mut ManagerHandle, client: u64) -> u32 {
        super::smblease_manager_cut(std::alloc::Global, manager, client)
    }

    /// [`super::smblease_manager_expire`] for C.
    #[unsafe(no_mangle)]
    pub extern "C" fn smblease_manager_expire(manager: &mut ManagerHandle, client: u64, key: &KeyBytes) -> u32 {
        super::smblease_manager_expire(std::alloc::Global, manager, client, key)
    }

    /// [`super::smblease_manager_run_out`] for C.
    #[unsafe(no_mangle)]
    pub extern "C" fn smblease_manager_run_out(manager: &mut ManagerHandle, number: u64) -> u32 {
        super::smblease_manager_run_out(std::alloc::Global, manager, number)
    }

    /// [`super::smblease_manager_scavenge`] for C.
    #[unsafe(no_mangle)]
    pub extern "C" fn smblease_manager_scavenge(manager: &mut ManagerHandle, file_id: u64) -> u32 {
        super::smblease_manager_scavenge(std::alloc::Global, manager, file_id)
    }

    /// [`super::smblease_manager_withdraw`] for C.
    #[unsafe(no_mangle)]
    pub extern "C" fn smblease_manager_withdraw(manager: &mut ManagerHandle, client: u64, tag: u64, file: u64) -> u32 {
        super::smblease_manager_withdraw(std::alloc::Global, manager, client, tag, file)
    }
}
