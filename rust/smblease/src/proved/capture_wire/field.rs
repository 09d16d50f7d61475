// Made by tools/plain_rust from crates/capture_wire/src/field.rt. Changes belong there.

use byteorder::{ByteOrder, LittleEndian};

/// A GUID as its sixteen bytes stand in the message.
#[derive(Clone, Copy, Debug, PartialEq, Eq, PartialOrd, Ord, Hash)]
pub struct Guid(pub [u8; 16]);

/// The FileId of an open, with both its parts (SMB2_FILEID, MS-SMB2 2.2.14.1).
#[derive(Clone, Copy, Debug, PartialEq, Eq, PartialOrd, Ord, Hash)]
pub struct Smb2FileId {
    pub persistent: u64,
    pub volatile: u64,
}

/// The sixteen bytes at a place.
pub(crate) fn sixteen_at(bytes: &[u8], place: usize) -> [u8; 16] {
    let mut sixteen = [0u8; 16];
    sixteen.copy_from_slice(&bytes[place..place + 16]);
    sixteen
}

/// The FileId at a place.
pub(crate) fn file_id_at(bytes: &[u8], place: usize) -> Smb2FileId {
    Smb2FileId { persistent: LittleEndian::read_u64(&bytes[place..]), volatile: LittleEndian::read_u64(&bytes[place + 8..]) }
}

/// Whether the bit `flag` is set in `flags`.
pub(crate) fn has_flag(flag: u32, flags: u32) -> bool {
    flags & flag == flag
}
