// Made by tools/plain_rust from crates/machines_c/src/client/handle.rt. Changes belong there.

use std::prelude::Box;

use crate::proved::machines_c::client::stepping::Stepping;
use crate::proved::machines_c::handles::Loose;
use std::alloc::Global;
use std::mem;
use std::ptr::null_mut;

/// A client machine and what its last call gave out, or nothing: `smblease_client`.
#[repr(C)]
pub struct ClientHandle {
    at: *mut u8,
}

// A handle may go to another thread.
unsafe impl Send for ClientHandle {}

impl ClientHandle {
    /// A handle that holds nothing.
    pub(crate) fn none() -> ClientHandle {
        ClientHandle { at: null_mut() }
    }

    fn of(loose: Loose<Stepping, Global>) -> ClientHandle {
        let Loose { at, alloc: _ } = loose;
        ClientHandle { at: at as *mut u8 }
    }

    /// What is held, as its pointer.
    pub(crate) fn into_loose(self, alloc: Global) -> Option<Loose<Stepping, Global>> {
        let ClientHandle { at } = self;
        if at.is_null() { None } else { Some(Loose { at: at as *mut Stepping, alloc }) }
    }

    /// What is held is taken out.
    pub(crate) fn take(&mut self, alloc: Global) -> Option<Box<Stepping>> {
        match mem::replace(self, ClientHandle::none()).into_loose(alloc) {
            None => None,
            Some(loose) => Some(loose.into_box()),
        }
    }

    /// This is held from now on, and what was held is freed.
    pub(crate) fn put(&mut self, alloc: Global, step: Box<Stepping>) {
        let old = mem::replace(self, ClientHandle::of(Loose::of(step)));
        match old.into_loose(alloc) {
            None => (),
            Some(loose) => drop(loose.into_box()),
        }
    }
}
