// Made by tools/plain_rust from crates/machines_c/src/server/files.rt. Changes belong there.

use std::prelude::{Box, Vec};

use crate::proved::machines_c::handles::Loose;
use smblease::proved::lease_state::Content;
use std::alloc::Global;
use std::mem;
use std::ptr::null_mut;

/// The contents of files, numbered from 1 in their order.
#[derive(Debug)]
pub struct Files {
    pub contents: Vec<Content>,
}

/// Files that a server is to begin with, or none: `smblease_files`.
#[repr(C)]
pub struct FilesHandle {
    at: *mut u8,
}

// A handle may go to another thread.
unsafe impl Send for FilesHandle {}

impl FilesHandle {
    /// A handle that holds nothing.
    pub(crate) fn none() -> FilesHandle {
        FilesHandle { at: null_mut() }
    }

    fn of(loose: Loose<Files, Global>) -> FilesHandle {
        let Loose { at, alloc: _ } = loose;
        FilesHandle { at: at as *mut u8 }
    }

    /// What is held, as its pointer.
    pub(crate) fn into_loose(self, alloc: Global) -> Option<Loose<Files, Global>> {
        let FilesHandle { at } = self;
        if at.is_null() { None } else { Some(Loose { at: at as *mut Files, alloc }) }
    }

    /// What is held is taken out.
    pub(crate) fn take(&mut self, alloc: Global) -> Option<Box<Files>> {
        match mem::replace(self, FilesHandle::none()).into_loose(alloc) {
            None => None,
            Some(loose) => Some(loose.into_box()),
        }
    }

    /// This is held from now on, and what was held is freed.
    pub(crate) fn put(&mut self, alloc: Global, files: Box<Files>) {
        let old = mem::replace(self, FilesHandle::of(Loose::of(files)));
        match old.into_loose(alloc) {
            None => (),
            Some(loose) => drop(loose.into_box()),
        }
    }
}
