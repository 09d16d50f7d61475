// Made by tools/plain_rust from crates/lease_world/src/copies.rt. Changes belong there.

use crate::proved::lease_client::Command;
use crate::proved::lease_state::{Memory, Reply, Request};

/// An equal command in memory of its own.
///
/// # Errors
///
/// `Memory` where there is none left.
pub fn copy_command(command: &Command) -> Result<Command, Memory> {
    Ok(match command {
        Command::Open { file, access, share, want, durable } => {
            Command::Open { file: *file, access: *access, share: *share, want: *want, durable: *durable }
        }
        Command::Close { file } => Command::Close { file: *file },
        Command::Read { file } => Command::Read { file: *file },
        Command::Write { file, patch } => Command::Write { file: *file, patch: patch.try_copy()? },
        Command::Flush { file } => Command::Flush { file: *file },
    })
}

/// An equal request in memory of its own.
///
/// # Errors
///
/// `Memory` where there is none left.
pub fn copy_request(request: &Request) -> Result<Request, Memory> {
    Ok(match request {
        Request::Create { file, access, share, contexts } => {
            Request::Create { file: *file, access: *access, share: *share, contexts: contexts.try_copy()? }
        }
        Request::Read { fid } => Request::Read { fid: *fid },
        Request::Write { fid, number, patch } => Request::Write { fid: *fid, number: *number, patch: patch.try_copy()? },
        Request::Close { fid } => Request::Close { fid: *fid },
        Request::Ack(bytes) => Request::Ack(*bytes),
    })
}

/// An equal reply in memory of its own.
///
/// # Errors
///
/// `Memory` where there is none left.
pub fn copy_reply(reply: &Reply) -> Result<Reply, Memory> {
    Ok(match reply {
        Reply::Created { file, fid, contexts } => Reply::Created { file: *file, fid: *fid, contexts: contexts.try_copy()? },
        Reply::CreateFailed { file, status } => Reply::CreateFailed { file: *file, status: *status },
        Reply::ReadDone { fid, bytes } => Reply::ReadDone { fid: *fid, bytes: bytes.try_copy()? },
        Reply::ReadFailed { fid, status } => Reply::ReadFailed { fid: *fid, status: *status },
        Reply::WriteDone { fid, number } => Reply::WriteDone { fid: *fid, number: *number },
        Reply::WriteFailed { fid, number, status } => Reply::WriteFailed { fid: *fid, number: *number, status: *status },
        Reply::Closed { fid } => Reply::Closed { fid: *fid },
        Reply::CloseFailed { fid, status } => Reply::CloseFailed { fid: *fid, status: *status },
        Reply::Break(message) => Reply::Break(*message),
        Reply::AckDone(message) => Reply::AckDone(*message),
        Reply::AckFailed { status } => Reply::AckFailed { status: *status },
    })
}
