// Made by tools/plain_rust from crates/machines_c/src/manager/restarting.rt. Changes belong there.

use std::prelude::Box;

use crate::proved::machines_c::handles::{Outcome, fill, rules_of};
use crate::proved::machines_c::manager::handle::ManagerHandle;
use crate::proved::machines_c::manager::managing::Managing;
use crate::proved::machines_c::manager::setting_up::managing;
use smblease::proved::kept_opens::{ImportError, export, import};
use smblease::proved::lease_manager::FileNo;
use smblease::proved::lease_state::Rules;
use std::alloc::Global;

/// The bytes of what a host keeps over a restart of its own: the opens that would be there were each client cut now (MS-SMB2
/// 3.3.7.1), with what their leases hold, and the FileId given last. They are written to the front of `room` where they fit, and
/// else nothing is written there; their number is written to `length`.
///
/// Returns 0; 1 where there is no memory for the bytes; 3 where there is no manager. After 1 and 3 nothing is written.
pub fn smblease_manager_export(alloc: Global, manager: &mut ManagerHandle, length: &mut usize, room: &mut [u8]) -> u32 {
    match manager.take(alloc) {
        None => Outcome::Nothing.code(),
        Some(managing) => {
            let outcome = match export(alloc, &managing.manager) {
                Ok(bytes) => {
                    *length = fill(room, &bytes);
                    Outcome::Done
                }
                Err(_) => Outcome::NoMemory,
            };
            manager.put(alloc, managing);
            outcome.code()
        }
    }
}

/// A manager as by `smblease_manager_new` that has the opens which these bytes hold, as `smblease_manager_export` wrote them: each
/// waits for its client to connect again (MS-SMB2 3.3.5.9.7). What the handle held is freed.
///
/// Returns 0; 1 where there is no memory; 4 where a number stands for no rule; 5 where no opens have these bytes; 6 where the opens
/// would break a law that holds of every manager. After all but 0 the handle is as it was.
pub fn smblease_manager_import(
    alloc: Global,
    manager: &mut ManagerHandle,
    order: u32,
    rise: u32,
    files: u64,
    bytes: &[u8],
) -> u32 {
    match rules_of(order, rise) {
        None => Outcome::NoSuch.code(),
        Some(rules) => match imported(alloc, rules, files, bytes) {
            Ok(made) => {
                manager.put(alloc, made);
                Outcome::Done.code()
            }
            Err(outcome) => outcome.code(),
        },
    }
}

// The manager that bytes make, in a box, or why there is none.
fn imported(alloc: Global, rules: Rules, files: u64, bytes: &[u8]) -> Result<Box<Managing>, Outcome> {
    match import(alloc, rules, FileNo(files), bytes) {
        Ok(manager) => match managing(alloc, manager) {
            Ok(made) => Ok(made),
            Err(_) => Err(Outcome::NoMemory),
        },
        Err(ImportError::Damaged) => Err(Outcome::Damaged),
        Err(ImportError::Unlawful) => Err(Outcome::Unlawful),
        Err(ImportError::Memory) => Err(Outcome::NoMemory),
    }
}

/// The functions of this module for C.
pub mod exported {
    use super::ManagerHandle;

    /// [`super::smblease_manager_export`] for C.
    ///
    /// # Safety
    ///
    /// There are as many items at each pointer as the length after it says; nobody writes them meanwhile, nor reads them where
    /// they are written. A pointer is null only where the length is 0.
    #[unsafe(no_mangle)]
    pub unsafe extern "C" fn smblease_manager_export(
        manager: &mut ManagerHandle,
        length: &mut usize,
        room: *mut u8,
        room_length: usize,
    ) -> u32 {
        // SAFETY: the caller's word.
        super::smblease_manager_export(std::alloc::Global, manager, length, unsafe { std::c::slice_mut(room, room_length) })
    }

    /// [`super::smblease_manager_import`] for C.
    ///
    /// # Safety
    ///
    /// There are as many items at each pointer as the length after it says; nobody writes them meanwhile, nor reads them where
    /// they are written. A pointer is null only where the length is 0.
    #[unsafe(no_mangle)]
    pub unsafe extern "C" fn smblease_manager_import(
        manager: &mut ManagerHandle,
        order: u32,
        rise: u32,
        files: u64,
        bytes: *const u8,
        bytes_length: usize,
    ) -> u32 {
        // SAFETY: the caller's word.
        super::smblease_manager_import(std::alloc::Global, manager, order, rise, files, unsafe {
            std::c::slice(bytes, bytes_length)
        })
    }
}
