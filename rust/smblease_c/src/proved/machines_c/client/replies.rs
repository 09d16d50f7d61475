// Made by tools/plain_rust from crates/machines_c/src/client/replies.rt. Changes belong there.

use crate::proved::machines_c::client::handle::ClientHandle;
use crate::proved::machines_c::client::values::BreakMessage;
use crate::proved::machines_c::handles::{Outcome, copied, status_of};
use crate::proved::machines_c::values::AckMessage;
use smblease::proved::lease_state::{FileId, FileNo, Reply};
use std::alloc::Global;

/// The server opened a file (MS-SMB2 3.2.5.7). `contexts` are the create contexts of the response
/// (2.2.14.2), or no bytes; they are copied.
///
/// Returns 0; 1 where there is no memory for the copy, and nothing changed; 2 where memory ran out
/// later, and the machine is lost; 3 where there is none.
pub fn smblease_client_take_created(alloc: Global, client: &mut ClientHandle, file: u8, file_id: u64, contexts: &[u8]) -> u32 {
    match copied(alloc, contexts) {
        Ok(contexts) => {
            let (file, fid) = (FileNo(file), FileId(file_id));
            client.hear(alloc, Reply::Created { file, fid, contexts }).code()
        }
        Err(_) => Outcome::NoMemory.code(),
    }
}

/// The server opened no file. A status that the machines have no name for is to them that of a request
/// that failed, here and below; an answer that fails by it tells it as it came.
///
/// Returns 0; 2 where memory ran out, and the machine is lost; 3 where there is none.
pub fn smblease_client_take_create_failed(alloc: Global, client: &mut ClientHandle, file: u8, status: u32) -> u32 {
    let (file, code, status) = (FileNo(file), status, status_of(status));
    client.hear_with(alloc, Reply::CreateFailed { file, status }, code).code()
}

/// The server read a whole file (3.2.5.11). The bytes are copied. The outcomes are those of
/// `smblease_client_take_created`.
pub fn smblease_client_take_read_done(alloc: Global, client: &mut ClientHandle, file_id: u64, bytes: &[u8]) -> u32 {
    match copied(alloc, bytes) {
        Ok(bytes) => {
            let fid = FileId(file_id);
            client.hear(alloc, Reply::ReadDone { fid, bytes }).code()
        }
        Err(_) => Outcome::NoMemory.code(),
    }
}

/// The server read nothing. The outcomes are those of `smblease_client_take_create_failed`.
pub fn smblease_client_take_read_failed(alloc: Global, client: &mut ClientHandle, file_id: u64, status: u32) -> u32 {
    let (fid, code, status) = (FileId(file_id), status, status_of(status));
    client.hear_with(alloc, Reply::ReadFailed { fid, status }, code).code()
}

/// The server did the write of this number (3.2.5.12). The outcomes are those of
/// `smblease_client_take_create_failed`.
pub fn smblease_client_take_write_done(alloc: Global, client: &mut ClientHandle, file_id: u64, number: u64) -> u32 {
    let fid = FileId(file_id);
    client.hear(alloc, Reply::WriteDone { fid, number }).code()
}

/// The server didn't do the write of this number. The outcomes are those of
/// `smblease_client_take_create_failed`.
pub fn smblease_client_take_write_failed(
    alloc: Global,
    client: &mut ClientHandle,
    file_id: u64,
    number: u64,
    status: u32,
) -> u32 {
    let (fid, code, status) = (FileId(file_id), status, status_of(status));
    let reply = Reply::WriteFailed { fid, number, status };
    client.hear_with(alloc, reply, code).code()
}

/// The server closed an open. Returns 0, or 3 where there is no machine; the machine is never lost.
pub fn smblease_client_take_closed(alloc: Global, client: &mut ClientHandle, file_id: u64) -> u32 {
    let fid = FileId(file_id);
    client.hear(alloc, Reply::Closed { fid }).code()
}

/// The server closed no open. The outcomes are those of `smblease_client_take_closed`.
pub fn smblease_client_take_close_failed(alloc: Global, client: &mut ClientHandle, file_id: u64, status: u32) -> u32 {
    let (fid, code, status) = (FileId(file_id), status, status_of(status));
    client.hear_with(alloc, Reply::CloseFailed { fid, status }, code).code()
}

/// The server breaks a lease (3.2.5.19.2): the 44 bytes of the notification (2.2.23.2). Bytes that
/// are none are passed over. The outcomes are those of `smblease_client_take_create_failed`.
pub fn smblease_client_take_break(alloc: Global, client: &mut ClientHandle, message: &BreakMessage) -> u32 {
    client.hear(alloc, Reply::Break(message.bytes)).code()
}

/// The server answers an acknowledgment: the 36 bytes of 2.2.25.2. The outcomes are those of
/// `smblease_client_take_closed`.
pub fn smblease_client_take_ack_done(alloc: Global, client: &mut ClientHandle, message: &AckMessage) -> u32 {
    client.hear(alloc, Reply::AckDone(message.bytes)).code()
}

/// The server refused an acknowledgment. The outcomes are those of `smblease_client_take_closed`.
pub fn smblease_client_take_ack_failed(alloc: Global, client: &mut ClientHandle, status: u32) -> u32 {
    let (code, status) = (status, status_of(status));
    client.hear_with(alloc, Reply::AckFailed { status }, code).code()
}

/// The functions of this module for C.
pub mod exported {
    use super::{AckMessage, BreakMessage, ClientHandle};

    /// [`super::smblease_client_take_created`] for C.
    ///
    /// # Safety
    ///
    /// There are as many items at each pointer as the length after it says; nobody writes them meanwhile, nor reads them where
    /// they are written. A pointer is null only where the length is 0.
    #[unsafe(no_mangle)]
    pub unsafe extern "C" fn smblease_client_take_created(
        client: &mut ClientHandle,
        file: u8,
        file_id: u64,
        contexts: *const u8,
        contexts_length: usize,
    ) -> u32 {
        // SAFETY: the caller's word.
        super::smblease_client_take_created(std::alloc::Global, client, file, file_id, unsafe {
            std::c::slice(contexts, contexts_length)
        })
    }

    /// [`super::smblease_client_take_create_failed`] for C.
    #[unsafe(no_mangle)]
    pub extern "C" fn smblease_client_take_create_failed(client: &mut ClientHandle, file: u8, status: u32) -> u32 {
        super::smblease_client_take_create_failed(std::alloc::Global, client, file, status)
    }

    /// [`super::smblease_client_take_read_done`] for C.
    ///
    /// # Safety
    ///
    /// There are as many items at each pointer as the length after it says; nobody writes them meanwhile, nor reads them where
    /// they are written. A pointer is null only where the length is 0.
    #[unsafe(no_mangle)]
    pub unsafe extern "C" fn smblease_client_take_read_done(
        client: &mut ClientHandle,
        file_id: u64,
        bytes: *const u8,
        bytes_length: usize,
    ) -> u32 {
        // SAFETY: the caller's word.
        super::smblease_client_take_read_done(std::alloc::Global, client, file_id, unsafe { std::c::slice(bytes, bytes_length) })
    }

    /// [`super::smblease_client_take_read_failed`] for C.
    #[unsafe(no_mangle)]
    pub extern "C" fn smblease_client_take_read_failed(client: &mut ClientHandle, file_id: u64, status: u32) -> u32 {
        super::smblease_client_take_read_failed(std::alloc::Global, client, file_id, status)
    }

    /// [`super::smblease_client_take_write_done`] for C.
    #[unsafe(no_mangle)]
    pub extern "C" fn smblease_client_take_write_done(client: &mut ClientHandle, file_id: u64, number: u64) -> u32 {
        super::smblease_client_take_write_done(std::alloc::Global, client, file_id, number)
    }

    /// [`super::smblease_client_take_write_failed`] for C.
    #[unsafe(no_mangle)]
    pub extern "C" fn smblease_client_take_write_failed(
        client: &mut ClientHandle,
        file_id: u64,
        number: u64,
        status: u32,
    ) -> u32 {
        super::smblease_client_take_write_failed(std::alloc::Global, client, file_id, number, status)
    }

    /// [`super::smblease_client_take_closed`] for C.
    #[unsafe(no_mangle)]
    pub extern "C" fn smblease_client_take_closed(client: &mut ClientHandle, file_id: u64) -> u32 {
        super::smblease_client_take_closed(std::alloc::Global, client, file_id)
    }

    /// [`super::smblease_client_take_close_failed`] for C.
    #[unsafe(no_mangle)]
    pub extern "C" fn smblease_client_take_close_failed(client: &mut ClientHandle, file_id: u64, status: u32) -> u32 {
        super::smblease_client_take_close_failed(std::alloc::Global, client, file_id, status)
    }

    /// [`super::smblease_client_take_break`] for C.
    #[unsafe(no_mangle)]
    pub extern "C" fn smblease_client_take_break(client: &mut ClientHandle, message: &BreakMessage) -> u32 {
        super::smblease_client_take_break(std::alloc::Global, client, message)
    }

    /// [`super::smblease_client_take_ack_done`] for C.
    #[unsafe(no_mangle)]
    pub extern "C" fn smblease_client_take_ack_done(client: &mut ClientHandle, message: &AckMessage) -> u32 {
        super::smblease_client_take_ack_done(std::alloc::Global, client, message)
    }

    /// [`super::smblease_client_take_ack_failed`] for C.
    #[unsafe(no_mangle)]
    pub extern "C" fn smblease_client_take_ack_failed(client: &mut ClientHandle, status: u32) -> u32 {
        super::smblease_client_take_ack_failed(std::alloc::Global, client, status)
    }
}
