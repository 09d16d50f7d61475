// Made by tools/plain_rust from crates/machines_c/src/manager/setting_up.rt. Changes belong there.

use std::prelude::{Box, Vec};

use crate::proved::machines_c::handles::{Outcome, rules_of};
use crate::proved::machines_c::manager::handle::ManagerHandle;
use crate::proved::machines_c::manager::listed::Listed;
use crate::proved::machines_c::manager::managing::Managing;
use smblease::proved::break_timers::BreakTimers;
use smblease::proved::lease_manager::{FileNo, Manager};
use smblease::proved::lease_state::Memory;
use smblease::proved::waiting_changes::WaitingChanges;
use std::alloc::Global;

/// A manager in a box, of which nothing was asked.
///
/// # Errors
///
/// `Memory` where there is none left for the box.
pub fn managing(alloc: Global, manager: Manager) -> Result<Box<Managing>, Memory> {
    let made = Managing {
        manager,
        changes: WaitingChanges::new(alloc),
        decisions: Vec::new(alloc),
        timers: BreakTimers::new(alloc),
        numbers: Vec::new(alloc),
        listed: Listed::nothing(alloc),
    };
    Ok(Box::new(alloc, made)?)
}

/// A manager where nothing is open and no client has joined, of rules that are an order of requests,
/// 0 by client or 1 by key, and how a lease rises, 0 as far as is free or 1 whole. Its host's files
/// have the numbers from 1 to `files`. What the handle held is freed.
///
/// Returns 0; 1 where there is no memory; 4 where a number stands for no rule. After 1 and 4 the
/// handle is as it was.
pub fn smblease_manager_new(alloc: Global, manager: &mut ManagerHandle, order: u32, rise: u32, files: u64) -> u32 {
    match rules_of(order, rise) {
        None => Outcome::NoSuch.code(),
        Some(rules) => match managing(alloc, Manager::with_files(alloc, rules, FileNo(files))) {
            Ok(made) => {
                manager.put(alloc, made);
                Outcome::Done.code()
            }
            Err(_) => Outcome::NoMemory.code(),
        },
    }
}

/// Frees the manager with all that it knows; the handle holds none then.
pub fn smblease_manager_free(alloc: Global, manager: &mut ManagerHandle) {
    drop(manager.take(alloc));
}

/// The functions of this module for C.
pub mod exported {
    use super::ManagerHandle;

    /// [`super::smblease_manager_new`] for C.
    #[unsafe(no_mangle)]
    pub extern "C" fn smblease_manager_new(manager: &mut ManagerHandle, order: u32, rise: u32, files: u64) -> u32 {
        super::smblease_manager_new(std::alloc::Global, manager, order, rise, files)
    }

    /// [`super::smblease_manager_free`] for C.
    #[unsafe(no_mangle)]
    pub extern "C" fn smblease_manager_free(manager: &mut ManagerHandle) {
        super::smblease_manager_free(std::alloc::Global, manager)
    }
}
