// Made by tools/plain_rust from crates/share_server/src/requests.rt. Changes belong there.

use std::prelude::Vec;

use crate::proved::lease_manager::CreateAnswer;
use crate::proved::lease_state::{Bytes, ClientNo, FileId, Memory, Patch, Status};
use crate::proved::share_server::files::Files;
use crate::proved::share_server::handles::Handles;
use crate::proved::share_server::outs::Outs;
use crate::proved::share_server::values::request::FileRequest;

/// The create is answered: its file is open under this FileId (MS-SMB2 3.3.5.9).
///
/// # Errors
///
/// `Memory` where there is none left.
pub fn open(
    handles: &mut Handles,
    outs: &mut Outs,
    client: ClientNo,
    fid: FileId,
    answer: CreateAnswer,
    request: FileRequest,
) -> Result<(), Memory> {
    if let FileRequest::Create { file, ask, .. } = request {
        if ask.reconnect.is_none() {
            handles.put(fid, file)?;
            outs.opened(file, client)?;
        }
        outs.created(client, file, fid, answer)?;
    }
    Ok(())
}

/// The read copies the bytes that are there, or the write puts its own over them (MS-SMB2 3.3.5.12, 3.3.5.13).
///
/// # Errors
///
/// `Memory` where there is none left.
pub fn go_on(
    files: &mut Files,
    handles: &Handles,
    outs: &mut Outs,
    client: ClientNo,
    request: FileRequest,
) -> Result<(), Memory> {
    match request {
        FileRequest::Read { fid } => read(files, handles, outs, client, fid),
        FileRequest::Write { fid, number, patch } => write(files, handles, outs, client, fid, number, patch),
        FileRequest::Create { .. } | FileRequest::Close { .. } => Ok(()),
    }
}

// A read gives the whole file (profile; MS-SMB2 3.3.5.12).
fn read(files: &Files, handles: &Handles, outs: &mut Outs, client: ClientNo, fid: FileId) -> Result<(), Memory> {
    let bytes = Vec::from_slice(outs.alloc(), files.bytes(handles.file(fid)))?;
    outs.read_done(client, fid, Bytes::new(bytes))
}

// A write changes its file, and its reply follows directly (3.3.5.13).
fn write(
    files: &mut Files,
    handles: &Handles,
    outs: &mut Outs,
    client: ClientNo,
    fid: FileId,
    number: u64,
    patch: Patch,
) -> Result<(), Memory> {
    let file = handles.file(fid);
    files.change(file, &patch)?;
    outs.changed(file, client, number, patch)?;
    outs.write_done(client, fid, number)
}

/// The close is answered (MS-SMB2 3.3.5.10).
///
/// # Errors
///
/// `Memory` where there is none left.
pub fn close(outs: &mut Outs, client: ClientNo, request: FileRequest) -> Result<(), Memory> {
    if let FileRequest::Close { fid } = request {
        outs.closed(client, fid)?;
    }
    Ok(())
}

/// The request is answered with the status.
///
/// # Errors
///
/// `Memory` where there is none left.
pub fn refuse(outs: &mut Outs, client: ClientNo, request: FileRequest, status: Status) -> Result<(), Memory> {
    outs.refuse(client, &request, status)?;
    Ok(())
}
