// Made by tools/plain_rust from crates/share_server/src/values/request.rt. Changes belong there.

use crate::proved::lease_manager::{Ask, CreateAsk};
use crate::proved::lease_state::{Access, FILE_LIMIT, FileId, FileNo, Patch, Share};
use crate::proved::share_server::values::number::file_no;

/// A request about a file, with its create contexts read.
#[derive(Debug)]
pub enum FileRequest {
    Create { file: FileNo, access: Access, share: Share, ask: CreateAsk },
    Read { fid: FileId },
    Write { fid: FileId, number: u64, patch: Patch },
    Close { fid: FileId },
}

impl FileRequest {
    /// What of the request decides when it can be answered.
    pub fn ask(&self) -> Ask {
        match self {
            FileRequest::Create { file, access, share, ask } => {
                Ask::Create { file: file_no(*file), access: *access, share: *share, ask: *ask }
            }
            FileRequest::Read { fid } => Ask::Read { fid: *fid },
            FileRequest::Write { fid, patch, .. } => Ask::Write { fid: *fid, fits: fits(patch) },
            FileRequest::Close { fid } => Ask::Close { fid: *fid },
        }
    }
}

// Whether the patch ends within the limit of a file.
fn fits(patch: &Patch) -> bool {
    let count = patch.bytes.len();
    count <= FILE_LIMIT && patch.offset as usize <= FILE_LIMIT - count
}
