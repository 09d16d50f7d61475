// Made by tools/plain_rust from crates/lease_client/src/values/key.rt. Changes belong there.

use crate::proved::lease_state::{FileNo, LeaseKey};

/// The LeaseKey under which the client of a ClientGuid opens a file (MS-SMB2 3.2.4.3.8): the first
/// 12 bytes of the GUID, and the file's number in 4 bytes, little-endian (profile). Allocates
/// nothing.
pub fn lease_key(guid: [u8; 16], file: FileNo) -> LeaseKey {
    let mut key = guid;
    key[12..].copy_from_slice(&[file.0, 0, 0, 0]);
    LeaseKey(key)
}
