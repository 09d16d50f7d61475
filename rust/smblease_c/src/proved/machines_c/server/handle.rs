// Made by tools/plain_rust from crates/machines_c/src/server/handle.rt. Changes belong there.

use std::prelude::{Box, Vec};

use crate::proved::machines_c::handles::Loose;
use smblease::proved::share_server::{Out, Server};
use std::alloc::Global;
use std::mem;
use std::ptr::null_mut;

/// A server, which is missing only while it is called, and what its last call gave out.
#[derive(Debug)]
pub struct Hosted {
    pub server: Option<Server>,
    pub outs: Vec<Out>,
}

/// A server and what its last call gave out, or nothing: `smblease_server`.
#[repr(C)]
pub struct ServerHandle {
    at: *mut u8,
}

// A handle may go to another thread.
unsafe impl Send for ServerHandle {}

impl ServerHandle {
    /// A handle that holds nothing.
    pub(crate) fn none() -> ServerHandle {
        ServerHandle { at: null_mut() }
    }

    fn of(loose: Loose<Hosted, Global>) -> ServerHandle {
        let Loose { at, alloc: _ } = loose;
        ServerHandle { at: at as *mut u8 }
    }

    /// What is held, as its pointer.
    pub(crate) fn into_loose(self, alloc: Global) -> Option<Loose<Hosted, Global>> {
        let ServerHandle { at } = self;
        if at.is_null() { None } else { Some(Loose { at: at as *mut Hosted, alloc }) }
    }

    /// What is held is taken out.
    pub(crate) fn take(&mut self, alloc: Global) -> Option<Box<Hosted>> {
        match mem::replace(self, ServerHandle::none()).into_loose(alloc) {
            None => None,
            Some(loose) => Some(loose.into_box()),
        }
    }

    /// This is held from now on, and what was held is freed.
    pub(crate) fn put(&mut self, alloc: Global, hosted: Box<Hosted>) {
        let old = mem::replace(self, ServerHandle::of(Loose::of(hosted)));
        match old.into_loose(alloc) {
            None => (),
            Some(loose) => drop(loose.into_box()),
        }
    }
}
