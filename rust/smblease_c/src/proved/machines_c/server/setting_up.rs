// Made by tools/plain_rust from crates/machines_c/src/server/setting_up.rt. Changes belong there.

use std::prelude::{Box, Vec};

use crate::proved::machines_c::handles::{Outcome, rules_of};
use crate::proved::machines_c::server::files::{Files, FilesHandle};
use crate::proved::machines_c::server::handle::{Hosted, ServerHandle};
use smblease::proved::lease_state::{Content, FILE_LIMIT, Memory, Rules};
use smblease::proved::share_server::Server;
use std::alloc::Global;

const MOST_FILES: usize = 255;

// A content of its own with these bytes.
fn content_of(alloc: Global, bytes: &[u8]) -> Result<Content, Memory> {
    match Content::new(Vec::from_slice(alloc, bytes)?) {
        Ok(content) => Ok(content),
        Err(_) => Err(Memory),
    }
}

// The files with one more.
fn added(alloc: Global, files: &mut Files, bytes: &[u8]) -> Result<(), Memory> {
    let content = content_of(alloc, bytes)?;
    files.contents.push(content)?;
    Ok(())
}

// The files that are held, or a box for the first one.
fn taken(alloc: Global, files: &mut FilesHandle) -> Result<Box<Files>, Memory> {
    match files.take(alloc) {
        Some(files) => Ok(files),
        None => Ok(Box::new(alloc, Files { contents: Vec::new(alloc) })?),
    }
}

// Adds a content, where there may be one more.
fn add_to(alloc: Global, files: &mut Files, bytes: &[u8]) -> Outcome {
    if files.contents.len() >= MOST_FILES {
        return Outcome::NoSuch;
    }
    match added(alloc, files, bytes) {
        Ok(()) => Outcome::Done,
        Err(_) => Outcome::NoMemory,
    }
}

/// One more file for a server to begin with, with a copy of these bytes. The first has number 1.
///
/// Returns 0; 1 where there is no memory; 4 where there are more than 1,048,576 bytes, or 255 files
/// already. After 1 and 4 the files are as they were.
pub fn smblease_files_add(alloc: Global, files: &mut FilesHandle, bytes: &[u8]) -> u32 {
    if bytes.len() > FILE_LIMIT {
        return Outcome::NoSuch.code();
    }
    match taken(alloc, files) {
        Ok(mut held) => {
            let outcome = add_to(alloc, &mut held, bytes);
            files.put(alloc, held);
            outcome.code()
        }
        Err(_) => Outcome::NoMemory.code(),
    }
}

/// Frees the files; the handle holds none then.
pub fn smblease_files_free(alloc: Global, files: &mut FilesHandle) {
    drop(files.take(alloc));
}

// The files that are held.
fn contents_of(alloc: Global, files: &mut FilesHandle) -> Vec<Content> {
    match files.take(alloc) {
        None => Vec::new(alloc),
        Some(files) => {
            let Files { contents } = Box::into_inner(files);
            contents
        }
    }
}

// A server of these rules with these files, in a box.
fn hosted(alloc: Global, rules: Rules, contents: Vec<Content>) -> Result<Box<Hosted>, Memory> {
    let server = Some(Server::with_rules(alloc, rules, contents)?);
    let outs = Vec::new(alloc);
    Ok(Box::new(alloc, Hosted { server, outs })?)
}

// Begins a server of these rules with these files.
fn begin(alloc: Global, rules: Rules, server: &mut ServerHandle, files: &mut FilesHandle) -> Outcome {
    match hosted(alloc, rules, contents_of(alloc, files)) {
        Ok(one) => {
            server.put(alloc, one);
            Outcome::Done
        }
        Err(_) => Outcome::Lost,
    }
}

/// A server with these files, that no client has joined; the files' handle holds none then. What the
/// server's handle held is freed.
///
/// Returns 0; 2 where memory ran out, and the files are lost. Then the server's handle is as it
/// was.
pub fn smblease_server_new(alloc: Global, server: &mut ServerHandle, files: &mut FilesHandle) -> u32 {
    begin(alloc, Rules::profile(), server, files).code()
}

/// A server as by `smblease_server_new`, of other rules than the profile's: an order of requests, 0 by
/// client or 1 by key, and how a lease rises, 0 as far as is free or 1 whole.
///
/// Returns 0; 2 where memory ran out, and the files are lost; 4 where a number stands for no rule, and
/// nothing changed. After 2 the server's handle is as it was.
pub fn smblease_server_new_with_rules(
    alloc: Global,
    server: &mut ServerHandle,
    files: &mut FilesHandle,
    order: u32,
    rise: u32,
) -> u32 {
    match rules_of(order, rise) {
        Some(rules) => begin(alloc, rules, server, files).code(),
        None => Outcome::NoSuch.code(),
    }
}

/// Frees the server and what its last call gave out; the handle holds none then.
pub fn smblease_server_free(alloc: Global, server: &mut ServerHandle) {
    drop(server.take(alloc));
}

/// The functions of this module for C.
pub mod exported {
    use super::{FilesHandle, ServerHandle};

    /// [`super::smblease_files_add`] for C.
    ///
    /// # Safety
    ///
    /// There are as many items at each pointer as the length after it says; nobody writes them meanwhile, nor reads them where
    /// they are written. A pointer is null only where the length is 0.
    #[unsafe(no_mangle)]
    pub unsafe extern "C" fn smblease_files_add(files: &mut FilesHandle, bytes: *const u8, bytes_length: usize) -> u32 {
        // SAFETY: the caller's word.
        super::smblease_files_add(std::alloc::Global, files, unsafe { std::c::slice(bytes, bytes_length) })
    }

    /// [`super::smblease_files_free`] for C.
    #[unsafe(no_mangle)]
    pub extern "C" fn smblease_files_free(files: &mut FilesHandle) {
        super::smblease_files_free(std::alloc::Global, files)
    }

    /// [`super::smblease_server_new`] for C.
    #[unsafe(no_mangle)]
    pub extern "C" fn smblease_server_new(server: &mut ServerHandle, files: &mut FilesHandle) -> u32 {
        super::smblease_server_new(std::alloc::Global, server, files)
    }

    /// [`super::smblease_server_new_with_rules`] for C.
    #[unsafe(no_mangle)]
    pub extern "C" fn smblease_server_new_with_rules(
        server: &mut ServerHandle,
        files: &mut FilesHandle,
        order: u32,
        rise: u32,
    ) -> u32 {
        super::smblease_server_new_with_rules(std::alloc::Global, server, files, order, rise)
    }

    /// [`super::smblease_server_free`] for C.
    #[unsafe(no_mangle)]
    pub extern "C" fn smblease_server_free(server: &mut ServerHandle) {
        super::smblease_server_free(std::alloc::Global, server)
    }
}
