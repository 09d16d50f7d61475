// Made by tools/plain_rust from crates/machines_c/src/server/queries.rt. Changes belong there.

use crate::proved::machines_c::handles::{Outcome, fill, write_id};
use crate::proved::machines_c::server::handle::ServerHandle;
use crate::proved::machines_c::values::{KeyBytes, MaybeKey};
use smblease::proved::lease_state::{ClientNo, FileId, FileNo, LeaseKey, LeaseState};
use std::alloc::Global;

/// What the server may grant: the bits of a LeaseState (profile). 0 where there is no machine.
pub fn smblease_server_allowed(alloc: Global, server: &mut ServerHandle, client: u8, key: &MaybeKey, file: u8, want: u32) -> u32 {
    match server.take(alloc) {
        None => 0,
        Some(hosted) => {
            let bits = match &hosted.server {
                Some(one) => one.allowed(ClientNo(client), key.key(), FileNo(file), LeaseState::from_wire(want)).to_wire(),
                None => 0,
            };
            server.put(alloc, hosted);
            bits
        }
    }
}

/// 1 where the client is connected (MS-SMB2 3.3.1.7, ConnectionList), and else 0.
pub fn smblease_server_connected(alloc: Global, server: &mut ServerHandle, client: u8) -> u32 {
    match server.take(alloc) {
        None => 0,
        Some(hosted) => {
            let is_connected = match &hosted.server {
                Some(one) => one.is_connected(ClientNo(client)),
                None => false,
            };
            server.put(alloc, hosted);
            u32::from(is_connected)
        }
    }
}

/// 1 where a break of the client's lease of this key waits for its acknowledgment (3.3.1.12,
/// Breaking), and else 0.
pub fn smblease_server_breaking(alloc: Global, server: &mut ServerHandle, client: u8, key: &KeyBytes) -> u32 {
    match server.take(alloc) {
        None => 0,
        Some(hosted) => {
            let is_breaking = match &hosted.server {
                Some(one) => one.breaking(ClientNo(client), LeaseKey(key.bytes)),
                None => false,
            };
            server.put(alloc, hosted);
            u32::from(is_breaking)
        }
    }
}

/// 1 where an open of this FileId waits for its client to connect again (3.3.1.10, IsDurable), and
/// else 0.
pub fn smblease_server_left_behind(alloc: Global, server: &mut ServerHandle, file_id: u64) -> u32 {
    match server.take(alloc) {
        None => 0,
        Some(hosted) => {
            let is_left = match &hosted.server {
                Some(one) => one.has_left_behind(FileId(file_id)),
                None => false,
            };
            server.put(alloc, hosted);
            u32::from(is_left)
        }
    }
}

/// The FileId of the client's oldest durable open on the file that waits to be connected again
/// (profile), into `file_id`.
///
/// Returns 0; 3 where there is no machine; 4 where there is no such open. Then nothing is written.
pub fn smblease_server_kept(alloc: Global, server: &mut ServerHandle, client: u8, file: u8, file_id: &mut u64) -> u32 {
    match server.take(alloc) {
        None => Outcome::Nothing.code(),
        Some(hosted) => {
            let outcome = match &hosted.server {
                Some(one) => write_id(one.kept(ClientNo(client), FileNo(file)), file_id),
                None => Outcome::Nothing,
            };
            server.put(alloc, hosted);
            outcome.code()
        }
    }
}

// How many bytes there are is written into `count`, and they to the front of `room` where they fit.
fn write_bytes(found: Option<&[u8]>, count: &mut u64, room: &mut [u8]) -> Outcome {
    match found {
        Some(bytes) => {
            *count = fill(room, bytes) as u64;
            Outcome::Done
        }
        None => Outcome::NoSuch,
    }
}

/// The bytes of a file, to the front of `room` where they fit; else nothing is written there. How many
/// there are is written into `count`.
///
/// Returns 0; 3 where there is no machine; 4 where the server has no file of this number. Then
/// nothing is written.
pub fn smblease_server_content(alloc: Global, server: &mut ServerHandle, file: u8, count: &mut u64, room: &mut [u8]) -> u32 {
    match server.take(alloc) {
        None => Outcome::Nothing.code(),
        Some(hosted) => {
            let outcome = match &hosted.server {
                Some(one) => write_bytes(one.content(FileNo(file)), count, room),
                None => Outcome::Nothing,
            };
            server.put(alloc, hosted);
            outcome.code()
        }
    }
}

/// The functions of this module for C.
pub mod exported {
    use super::{KeyBytes, MaybeKey, ServerHandle};

    /// [`super::smblease_server_allowed`] for C.
    #[unsafe(no_mangle)]
    pub extern "C" fn smblease_server_allowed(server: &mut ServerHandle, client: u8, key: &MaybeKey, file: u8, want: u32) -> u32 {
        super::smblease_server_allowed(std::alloc::Global, server, client, key, file, want)
    }

    /// [`super::smblease_server_connected`] for C.
    #[unsafe(no_mangle)]
    pub extern "C" fn smblease_server_connected(server: &mut ServerHandle, client: u8) -> u32 {
        super::smblease_server_connected(std::alloc::Global, server, client)
    }

    /// [`super::smblease_server_breaking`] for C.
    #[unsafe(no_mangle)]
    pub extern "C" fn smblease_server_breaking(server: &mut ServerHandle, client: u8, key: &KeyBytes) -> u32 {
        super::smblease_server_breaking(std::alloc::Global, server, client, key)
    }

    /// [`super::smblease_server_left_behind`] for C.
    #[unsafe(no_mangle)]
    pub extern "C" fn smblease_server_left_behind(server: &mut ServerHandle, file_id: u64) -> u32 {
        super::smblease_server_left_behind(std::alloc::Global, server, file_id)
    }

    /// [`super::smblease_server_kept`] for C.
    #[unsafe(no_mangle)]
    pub extern "C" fn smblease_server_kept(server: &mut ServerHandle, client: u8, file: u8, file_id: &mut u64) -> u32 {
        super::smblease_server_kept(std::alloc::Global, server, client, file, file_id)
    }

    /// [`super::smblease_server_content`] for C.
    ///
    /// # Safety
    ///
    /// There are as many items at each pointer as the length after it says; nobody writes them meanwhile, nor reads them where
    /// they are written. A pointer is null only where the length is 0.
    #[unsafe(no_mangle)]
    pub unsafe extern "C" fn smblease_server_content(
        server: &mut ServerHandle,
        file: u8,
        count: &mut u64,
        room: *mut u8,
        room_length: usize,
    ) -> u32 {
        // SAFETY: the caller's word.
        super::smblease_server_content(std::alloc::Global, server, file, count, unsafe { std::c::slice_mut(room, room_length) })
    }
}
