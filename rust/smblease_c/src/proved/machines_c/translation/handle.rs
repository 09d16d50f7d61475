// Made by tools/plain_rust from crates/machines_c/src/translation/handle.rt. Changes belong there.

use std::prelude::Box;

use crate::proved::machines_c::handles::Loose;
use crate::proved::machines_c::translation::translating::Translating;
use std::alloc::Global;
use std::mem;
use std::ptr::null_mut;

/// What a client knows of leases of version 2, or nothing: `smblease_client_versions`.
#[repr(C)]
pub struct ClientVersionsHandle {
    at: *mut u8,
}

// A handle may go to another thread.
unsafe impl Send for ClientVersionsHandle {}

impl ClientVersionsHandle {
    /// A handle that holds nothing.
    pub(crate) fn none() -> ClientVersionsHandle {
        ClientVersionsHandle { at: null_mut() }
    }

    fn of(loose: Loose<Translating, Global>) -> ClientVersionsHandle {
        let Loose { at, alloc: _ } = loose;
        ClientVersionsHandle { at: at as *mut u8 }
    }

    /// What is held, as its pointer.
    pub(crate) fn into_loose(self, alloc: Global) -> Option<Loose<Translating, Global>> {
        let ClientVersionsHandle { at } = self;
        if at.is_null() { None } else { Some(Loose { at: at as *mut Translating, alloc }) }
    }

    /// What is held is taken out.
    pub(crate) fn take(&mut self, alloc: Global) -> Option<Box<Translating>> {
        match mem::replace(self, ClientVersionsHandle::none()).into_loose(alloc) {
            None => None,
            Some(loose) => Some(loose.into_box()),
        }
    }

    /// This is held from now on, and what was held is freed.
    pub(crate) fn put(&mut self, alloc: Global, translating: Box<Translating>) {
        let old = mem::replace(self, ClientVersionsHandle::of(Loose::of(translating)));
        match old.into_loose(alloc) {
            None => (),
            Some(loose) => drop(loose.into_box()),
        }
    }
}
