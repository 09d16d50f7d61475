// Made by tools/plain_rust from crates/lease_state/src/request.rt. Changes belong there.

use crate::proved::lease_state::{Access, Bytes, FileId, FileNo, Patch, Share};

/// What a client asks of the server (profile): a message of MS-SMB2 without its header. Where it
/// concerns a lease it has the standard's bytes.
#[derive(Debug, PartialEq, Eq)]
pub enum Request {
    /// To open a file (2.2.13). `contexts` is the list of create contexts as the standard lays it
    /// out (2.2.13.2), or no bytes.
    Create { file: FileNo, access: Access, share: Share, contexts: Bytes },
    /// To read the whole file of an open (2.2.19).
    Read { fid: FileId },
    /// To patch the file of an open (2.2.21). The client numbers its writes from 1.
    Write { fid: FileId, number: u64, patch: Patch },
    /// To close an open (2.2.15).
    Close { fid: FileId },
    /// To acknowledge the break of a lease: the 36 bytes of 2.2.24.2.
    Ack([u8; 36]),
}

#[cfg(test)]
mod tests {
    use std::prelude::{HostRuntime, Vec};

    use super::*;
    use std::test::Fail;

    #[test]
    fn requests_compare_by_their_fields() {
        std::test::passes(|| -> Result<(), Fail> {
            let rt = HostRuntime::host();
            let bytes = Bytes::new(Vec::from_slice(rt.alloc(), b"Y")?);
            let patch = Patch { offset: 4, bytes };
            let other = Request::Write { fid: FileId(1), number: 1, patch: patch.try_copy()? };
            let write = Request::Write { fid: FileId(1), number: 2, patch };
            assert!(write == write);
            assert!(write != other);
            assert!(Request::Ack([0; 36]) != Request::Ack([1; 36]));
            Ok(())
        })
    }
}
