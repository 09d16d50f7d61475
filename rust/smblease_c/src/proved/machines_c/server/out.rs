// Made by tools/plain_rust from crates/machines_c/src/server/out.rt. Changes belong there.

use crate::proved::machines_c::handles::{Outcome, fill};
use crate::proved::machines_c::server::handle::ServerHandle;
use smblease::proved::lease_state::Reply;
use smblease::proved::share_server::Out;
use std::alloc::Global;

/// What a server gives out: `smblease_server_out`. What has no meaning for the kind is 0.
#[repr(C)]
#[derive(Clone, Copy, Debug, PartialEq, Eq)]
pub struct ServerOut {
    /// The FileId of the open.
    pub file_id: u64,
    /// The number of the write.
    pub number: u64,
    /// How many bytes there are: create contexts, those of a file, a write or a break message.
    pub length: u64,
    /// 1 to 11 a message to the client: created, create failed, read done, read failed, write done,
    /// write failed, closed, close failed, break, acknowledgment done, acknowledgment failed; 12 the
    /// file was opened for the client; 13 the file was changed by the client's write.
    pub kind: u32,
    /// The NTSTATUS of a message that refuses.
    pub status: u32,
    /// Where the bytes of the write go.
    pub offset: u32,
    /// The number of the client.
    pub client: u8,
    /// The number of the file.
    pub file: u8,
    /// Room for later versions: 0.
    pub reserved: [u8; 26],
}

// The bytes of a message.
fn bytes_of(reply: &Reply) -> &[u8] {
    match reply {
        Reply::Created { contexts, .. } => contexts.as_slice(),
        Reply::ReadDone { bytes, .. } => bytes.as_slice(),
        Reply::Break(bytes) => bytes.as_slice(),
        Reply::AckDone(bytes) => bytes.as_slice(),
        _ => b"",
    }
}

// The bytes of what was given out.
fn bytes_given(out: &Out) -> &[u8] {
    match out {
        Out::Sent(_, reply) => bytes_of(reply),
        Out::Changed(_, _, _, patch) => patch.bytes.as_slice(),
        Out::Opened(_, _) => b"",
    }
}

impl ServerOut {
    // What is said about an open.
    fn about(kind: u32, file_id: u64) -> ServerOut {
        ServerOut { file_id, number: 0, length: 0, kind, status: 0, offset: 0, client: 0, file: 0, reserved: [0; 26] }
    }

    // A refusal about an open.
    fn refused(kind: u32, file_id: u64, status: u32) -> ServerOut {
        ServerOut { status, ..ServerOut::about(kind, file_id) }
    }

    // Something with so many bytes.
    fn with_bytes(kind: u32, file_id: u64, length: usize) -> ServerOut {
        ServerOut { length: length as u64, ..ServerOut::about(kind, file_id) }
    }

    // The fields that hold a message.
    fn of_reply(reply: &Reply) -> ServerOut {
        match reply {
            Reply::Created { file, fid, contexts } => {
                ServerOut { file: file.0, ..ServerOut::with_bytes(1, fid.0, contexts.len()) }
            }
            Reply::CreateFailed { file, status } => ServerOut { file: file.0, ..ServerOut::refused(2, 0, status.code()) },
            Reply::ReadDone { fid, bytes } => ServerOut::with_bytes(3, fid.0, bytes.len()),
            Reply::ReadFailed { fid, status } => ServerOut::refused(4, fid.0, status.code()),
            Reply::WriteDone { fid, number } => ServerOut { number: *number, ..ServerOut::about(5, fid.0) },
            Reply::WriteFailed { fid, number, status } => {
                ServerOut { number: *number, ..ServerOut::refused(6, fid.0, status.code()) }
            }
            Reply::Closed { fid } => ServerOut::about(7, fid.0),
            Reply::CloseFailed { fid, status } => ServerOut::refused(8, fid.0, status.code()),
            Reply::Break(_) => ServerOut::with_bytes(9, 0, 44),
            Reply::AckDone(_) => ServerOut::with_bytes(10, 0, 36),
            Reply::AckFailed { status } => ServerOut::refused(11, 0, status.code()),
        }
    }

    // The fields that hold what was given out.
    fn holding(out: &Out) -> ServerOut {
        match out {
            Out::Sent(client, reply) => ServerOut { client: client.0, ..ServerOut::of_reply(reply) },
            Out::Opened(file, client) => ServerOut { client: client.0, file: file.0, ..ServerOut::about(12, 0) },
            Out::Changed(file, client, number, patch) => ServerOut {
                number: *number,
                offset: patch.offset,
                client: client.0,
                file: file.0,
                ..ServerOut::with_bytes(13, 0, patch.bytes.len())
            },
        }
    }
}

// Writes what is there into `out`, and its bytes to the front of `room` where they fit.
fn tell(given: Option<&Out>, out: &mut ServerOut, room: &mut [u8]) -> Outcome {
    match given {
        Some(given) => {
            *out = ServerOut::holding(given);
            fill(room, bytes_given(given));
            Outcome::Done
        }
        None => Outcome::NoSuch,
    }
}

/// How much the last call gave out; 0 where there is no machine.
pub fn smblease_server_out_count(alloc: Global, server: &mut ServerHandle) -> usize {
    match server.take(alloc) {
        None => 0,
        Some(hosted) => {
            let count = if hosted.server.is_some() { hosted.outs.len() } else { 0 };
            server.put(alloc, hosted);
            count
        }
    }
}

/// What the last call gave out at this index, from 0. Its bytes are written to the front of `room`
/// where they fit, and else nothing is written there.
///
/// Returns 0; 3 where there is no machine; 4 where nothing has the index. Then nothing is written.
pub fn smblease_server_out_at(
    alloc: Global,
    server: &mut ServerHandle,
    index: usize,
    out: &mut ServerOut,
    room: &mut [u8],
) -> u32 {
    match server.take(alloc) {
        None => Outcome::Nothing.code(),
        Some(hosted) => {
            let outcome = if hosted.server.is_some() { tell(hosted.outs.get(index), out, room) } else { Outcome::Nothing };
            server.put(alloc, hosted);
            outcome.code()
        }
    }
}

/// The functions of this module for C.
pub mod exported {
    use super::{ServerHandle, ServerOut};

    /// [`super::smblease_server_out_count`] for C.
    #[unsafe(no_mangle)]
    pub extern "C" fn smblease_server_out_count(server: &mut ServerHandle) -> usize {
        super::smblease_server_out_count(std::alloc::Global, server)
    }

    /// [`super::smblease_server_out_at`] for C.
    ///
    /// # Safety
    ///
    /// There are as many items at each pointer as the length after it says; nobody writes them meanwhile, nor reads them where
    /// they are written. A pointer is null only where the length is 0.
    #[unsafe(no_mangle)]
    pub unsafe extern "C" fn smblease_server_out_at(
        server: &mut ServerHandle,
        index: usize,
        out: &mut ServerOut,
        room: *mut u8,
        room_length: usize,
    ) -> u32 {
        // SAFETY: the caller's word.
        super::smblease_server_out_at(std::alloc::Global, server, index, out, unsafe { std::c::slice_mut(room, room_length) })
    }
}
