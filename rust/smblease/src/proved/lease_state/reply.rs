// Made by tools/plain_rust from crates/lease_state/src/reply.rt. Changes belong there.

use crate::proved::lease_state::{Bytes, FileId, FileNo, Status};

/// A message from the server to a client (profile): a message of MS-SMB2 without its header. Where
/// it concerns a lease it has the standard's bytes.
#[derive(Debug, PartialEq, Eq)]
pub enum Reply {
    /// A file was opened (2.2.14). `contexts` is the list of create contexts as the standard lays
    /// it out (2.2.14.2), or no bytes.
    Created { file: FileNo, fid: FileId, contexts: Bytes },
    /// No file was opened (2.2.2).
    CreateFailed { file: FileNo, status: Status },
    /// The whole file was read (2.2.20).
    ReadDone { fid: FileId, bytes: Bytes },
    /// Nothing was read (2.2.2).
    ReadFailed { fid: FileId, status: Status },
    /// The write of this number was done (2.2.22).
    WriteDone { fid: FileId, number: u64 },
    /// The write of this number wasn't done (2.2.2).
    WriteFailed { fid: FileId, number: u64, status: Status },
    /// An open was closed (2.2.16).
    Closed { fid: FileId },
    /// No open was closed (2.2.2).
    CloseFailed { fid: FileId, status: Status },
    /// The break of a lease, which no request asked for: the 44 bytes of 2.2.23.2.
    Break([u8; 44]),
    /// The answer to an acknowledgment: the 36 bytes of 2.2.25.2.
    AckDone([u8; 36]),
    /// The acknowledgment was refused (2.2.2).
    AckFailed { status: Status },
}

#[cfg(test)]
mod tests {
    use std::prelude::{HostRuntime, Vec};

    use super::*;
    use std::test::Fail;

    #[test]
    fn replies_compare_by_their_fields() {
        std::test::passes(|| -> Result<(), Fail> {
            let rt = HostRuntime::host();
            let bytes = Bytes::new(Vec::from_slice(rt.alloc(), b"abc")?);
            let other = Reply::ReadDone { fid: FileId(2), bytes: bytes.try_copy()? };
            let done = Reply::ReadDone { fid: FileId(1), bytes };
            assert!(done == done);
            assert!(done != other);
            assert!(Reply::Break([0; 44]) != Reply::Break([1; 44]));
            Ok(())
        })
    }
}
