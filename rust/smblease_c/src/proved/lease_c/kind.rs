// Made by tools/plain_rust from crates/lease_c/src/kind.rt. Changes belong there.

use byteorder::{ByteOrder, LittleEndian};

// Whether the bytes begin with a message of this size, whose StructureSize gives that size.
fn begins_with_size(bytes: &[u8], size: u16) -> bool {
    bytes.len() >= usize::from(size) && LittleEndian::read_u16(bytes) == size
}

/// Returns which message the body of an OPLOCK_BREAK command is, by its StructureSize and length
/// (MS-SMB2 2.2.23 to 2.2.25): `enum smblease_message_kind`. Bytes after the message are passed
/// over.
pub fn smblease_message_kind(bytes: &[u8]) -> u32 {
    if begins_with_size(bytes, 44) {
        1
    } else if begins_with_size(bytes, 36) {
        2
    } else if begins_with_size(bytes, 24) {
        3
    } else {
        0
    }
}

/// The functions of this module for C.
pub mod exported {

    /// [`super::smblease_message_kind`] for C.
    ///
    /// # Safety
    ///
    /// There are as many items at each pointer as the length after it says; nobody writes them meanwhile, nor reads them where
    /// they are written. A pointer is null only where the length is 0.
    #[unsafe(no_mangle)]
    pub unsafe extern "C" fn smblease_message_kind(bytes: *const u8, bytes_length: usize) -> u32 {
        // SAFETY: the caller's word.
        super::smblease_message_kind(unsafe { std::c::slice(bytes, bytes_length) })
    }
}
