// Made by tools/plain_rust from crates/machines_c/src/versions/handle.rt. Changes belong there.

use std::prelude::Box;

use crate::proved::machines_c::handles::Loose;
use crate::proved::machines_c::versions::following::Following;
use std::alloc::Global;
use std::mem;
use std::ptr::null_mut;

/// What is known of leases of version 2, or nothing: `smblease_versions`.
#[repr(C)]
pub struct VersionsHandle {
    at: *mut u8,
}

// A handle may go to another thread.
unsafe impl Send for VersionsHandle {}

impl VersionsHandle {
    /// A handle that holds nothing.
    pub(crate) fn none() -> VersionsHandle {
        VersionsHandle { at: null_mut() }
    }

    fn of(loose: Loose<Following, Global>) -> VersionsHandle {
        let Loose { at, alloc: _ } = loose;
        VersionsHandle { at: at as *mut u8 }
    }

    /// What is held, as its pointer.
    pub(crate) fn into_loose(self, alloc: Global) -> Option<Loose<Following, Global>> {
        let VersionsHandle { at } = self;
        if at.is_null() { None } else { Some(Loose { at: at as *mut Following, alloc }) }
    }

    /// What is held is taken out.
    pub(crate) fn take(&mut self, alloc: Global) -> Option<Box<Following>> {
        match mem::replace(self, VersionsHandle::none()).into_loose(alloc) {
            None => None,
            Some(loose) => Some(loose.into_box()),
        }
    }

    /// This is held from now on, and what was held is freed.
    pub(crate) fn put(&mut self, alloc: Global, following: Box<Following>) {
        let old = mem::replace(self, VersionsHandle::of(Loose::of(following)));
        match old.into_loose(alloc) {
            None => (),
            Some(loose) => drop(loose.into_box()),
        }
    }
}
