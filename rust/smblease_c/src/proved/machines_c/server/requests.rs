// Made by tools/plain_rust from crates/machines_c/src/server/requests.rt. Changes belong there.

use crate::proved::machines_c::handles::{Outcome, access_of, copied, share_of};
use crate::proved::machines_c::server::handle::ServerHandle;
use crate::proved::machines_c::values::AckMessage;
use smblease::proved::lease_state::{FileId, FileNo, Patch, Request};
use std::alloc::Global;

/// A client asks to open a file (MS-SMB2 3.3.5.9). `contexts` are the create contexts of the request
/// (2.2.13.2), or no bytes; they are copied. Where the client isn't connected nothing changes.
///
/// Returns 0; 1 where there is no memory for the copy, and 4 where the number of the access or of
/// the share stands for nothing: then nothing changed; 2 where memory ran out later, and the
/// machine is lost, which is never where the client isn't connected; 3 where there is none.
pub fn smblease_server_receive_create(
    alloc: Global,
    server: &mut ServerHandle,
    client: u8,
    file: u8,
    access: u8,
    share: u8,
    contexts: &[u8],
) -> u32 {
    let (Some(access), Some(share)) = (access_of(access), share_of(share)) else {
        return Outcome::NoSuch.code();
    };
    match copied(alloc, contexts) {
        Ok(contexts) => {
            let file = FileNo(file);
            let request = Request::Create { file, access, share, contexts };
            server.hear(alloc, client, request).code()
        }
        Err(_) => Outcome::NoMemory.code(),
    }
}

/// A client asks to read the whole file of an open (3.3.5.12). Where it isn't connected nothing
/// changes.
///
/// Returns 0; 2 where memory ran out, and the machine is lost, which is never where the client
/// isn't connected; 3 where there is none.
pub fn smblease_server_receive_read(alloc: Global, server: &mut ServerHandle, client: u8, file_id: u64) -> u32 {
    let fid = FileId(file_id);
    server.hear(alloc, client, Request::Read { fid }).code()
}

/// A client asks to write the file of an open (3.3.5.13): its write of this number, and where the
/// bytes go. They are copied. Where the client isn't connected nothing changes.
///
/// Returns 0; 1 where there is no memory for the copy, and nothing changed; 2 where memory ran out
/// later, and the machine is lost, which is never where the client isn't connected; 3 where there
/// is none.
pub fn smblease_server_receive_write(
    alloc: Global,
    server: &mut ServerHandle,
    client: u8,
    file_id: u64,
    number: u64,
    offset: u32,
    bytes: &[u8],
) -> u32 {
    match copied(alloc, bytes) {
        Ok(bytes) => {
            let (fid, patch) = (FileId(file_id), Patch { offset, bytes });
            let request = Request::Write { fid, number, patch };
            server.hear(alloc, client, request).code()
        }
        Err(_) => Outcome::NoMemory.code(),
    }
}

/// A client asks to close an open (3.3.5.10). The outcomes are those of
/// `smblease_server_receive_read`.
pub fn smblease_server_receive_close(alloc: Global, server: &mut ServerHandle, client: u8, file_id: u64) -> u32 {
    let fid = FileId(file_id);
    server.hear(alloc, client, Request::Close { fid }).code()
}

/// A client acknowledges the break of a lease (3.3.5.22.2): the 36 bytes of 2.2.24.2. Bytes that are
/// none are refused. The outcomes are those of `smblease_server_receive_read`.
pub fn smblease_server_receive_ack(alloc: Global, server: &mut ServerHandle, client: u8, message: &AckMessage) -> u32 {
    server.hear(alloc, client, Request::Ack(message.bytes)).code()
}

/// The functions of this module for C.
pub mod exported {
    use super::{AckMessage, ServerHandle};

    /// [`super::smblease_server_receive_create`] for C.
    ///
    /// # Safety
    ///
    /// There are as many items at each pointer as the length after it says; nobody writes them meanwhile, nor reads them where
    /// they are written. A pointer is null only where the length is 0.
    #[unsafe(no_mangle)]
    pub unsafe extern "C" fn smblease_server_receive_create(
        server: &mut ServerHandle,
        client: u8,
        file: u8,
        access: u8,
        share: u8,
        contexts: *const u8,
        contexts_length: usize,
    ) -> u32 {
        // SAFETY: the caller's word.
        super::smblease_server_receive_create(std::alloc::Global, server, client, file, access, share, unsafe {
            std::c::slice(contexts, contexts_length)
        })
    }

    /// [`super::smblease_server_receive_read`] for C.
    #[unsafe(no_mangle)]
    pub extern "C" fn smblease_server_receive_read(server: &mut ServerHandle, client: u8, file_id: u64) -> u32 {
        super::smblease_server_receive_read(std::alloc::Global, server, client, file_id)
    }

    /// [`super::smblease_server_receive_write`] for C.
    ///
    /// # Safety
    ///
    /// There are as many items at each pointer as the length after it says; nobody writes them meanwhile, nor reads them where
    /// they are written. A pointer is null only where the length is 0.
    #[unsafe(no_mangle)]
    pub unsafe extern "C" fn smblease_server_receive_write(
        server: &mut ServerHandle,
        client: u8,
        file_id: u64,
        number: u64,
        offset: u32,
        bytes: *const u8,
        bytes_length: usize,
    ) -> u32 {
        // SAFETY: the caller's word.
        super::smblease_server_receive_write(std::alloc::Global, server, client, file_id, number, offset, unsafe {
            std::c::slice(bytes, bytes_length)
        })
    }

    /// [`super::smblease_server_receive_close`] for C.
    #[unsafe(no_mangle)]
    pub extern "C" fn smblease_server_receive_close(server: &mut ServerHandle, client: u8, file_id: u64) -> u32 {
        super::smblease_server_receive_close(std::alloc::Global, server, client, file_id)
    }

    /// [`super::smblease_server_receive_ack`] for C.
    #[unsafe(no_mangle)]
    pub extern "C" fn smblease_server_receive_ack(server: &mut ServerHandle, client: u8, message: &AckMessage) -> u32 {
        super::smblease_server_receive_ack(std::alloc::Global, server, client, message)
    }
}
