// Made by tools/plain_rust from crates/machines_c/src/manager/handle.rt. Changes belong there.

use std::prelude::Box;

use crate::proved::machines_c::handles::Loose;
use crate::proved::machines_c::manager::managing::Managing;
use std::alloc::Global;
use std::mem;
use std::ptr::null_mut;

/// A manager with what it gave last, or nothing: `smblease_manager`.
#[repr(C)]
pub struct ManagerHandle {
    at: *mut u8,
}

// A handle may go to another thread.
unsafe impl Send for ManagerHandle {}

impl ManagerHandle {
    /// A handle that holds nothing.
    pub(crate) fn none() -> ManagerHandle {
        ManagerHandle { at: null_mut() }
    }

    fn of(loose: Loose<Managing, Global>) -> ManagerHandle {
        let Loose { at, alloc: _ } = loose;
        ManagerHandle { at: at as *mut u8 }
    }

    /// What is held, as its pointer.
    pub(crate) fn into_loose(self, alloc: Global) -> Option<Loose<Managing, Global>> {
        let ManagerHandle { at } = self;
        if at.is_null() { None } else { Some(Loose { at: at as *mut Managing, alloc }) }
    }

    /// What is held is taken out.
    pub(crate) fn take(&mut self, alloc: Global) -> Option<Box<Managing>> {
        match mem::replace(self, ManagerHandle::none()).into_loose(alloc) {
            None => None,
            Some(loose) => Some(loose.into_box()),
        }
    }

    /// This is held from now on, and what was held is freed.
    pub(crate) fn put(&mut self, alloc: Global, managing: Box<Managing>) {
        let old = mem::replace(self, ManagerHandle::of(Loose::of(managing)));
        match old.into_loose(alloc) {
            None => (),
            Some(loose) => drop(loose.into_box()),
        }
    }
}
