// Made by tools/plain_rust from crates/capture_wire/src/files.rt. Changes belong there.

use crate::proved::capture_wire::fault::MessageFault;
use crate::proved::capture_wire::field::{Smb2FileId, file_id_at};
use crate::proved::capture_wire::part::check_fixed;
use byteorder::{ByteOrder, LittleEndian};

/// A CLOSE request (MS-SMB2 2.2.15).
#[derive(Clone, Copy, Debug, PartialEq, Eq)]
pub struct CloseRequest {
    pub file_id: Smb2FileId,
}

/// A READ request (MS-SMB2 2.2.19).
#[derive(Clone, Copy, Debug, PartialEq, Eq)]
pub struct ReadRequest {
    pub file_id: Smb2FileId,
    /// Where the bytes begin in the file.
    pub offset: u64,
    /// How many bytes are asked for.
    pub length: u32,
}

/// A WRITE request (MS-SMB2 2.2.21) without the bytes that are written.
#[derive(Clone, Copy, Debug, PartialEq, Eq)]
pub struct WriteRequest {
    pub file_id: Smb2FileId,
    /// Where the bytes begin in the file.
    pub offset: u64,
    /// How many bytes are written.
    pub length: u32,
}

/// Reads a CLOSE request, from its header on.
///
/// # Errors
///
/// `Short` where the message ends before its 88 bytes do, and `WrongSize` where StructureSize is not 24.
pub fn read_close_request(message: &[u8]) -> Result<CloseRequest, MessageFault> {
    check_fixed(message, 88, 24)?;
    Ok(CloseRequest { file_id: file_id_at(message, 72) })
}

/// Reads a READ request, from its header on.
///
/// # Errors
///
/// `Short` where the message ends within the fixed part, and `WrongSize` where StructureSize is not 49.
pub fn read_read_request(message: &[u8]) -> Result<ReadRequest, MessageFault> {
    check_fixed(message, 112, 49)?;
    Ok(ReadRequest {
        file_id: file_id_at(message, 80),
        offset: LittleEndian::read_u64(&message[72..]),
        length: LittleEndian::read_u32(&message[68..]),
    })
}

/// Reads a WRITE request, from its header on. Whether the bytes that it writes are within the message isn't looked at.
///
/// # Errors
///
/// `Short` where the message ends within the fixed part, and `WrongSize` where StructureSize is not 49.
pub fn read_write_request(message: &[u8]) -> Result<WriteRequest, MessageFault> {
    check_fixed(message, 112, 49)?;
    Ok(WriteRequest {
        file_id: file_id_at(message, 80),
        offset: LittleEndian::read_u64(&message[72..]),
        length: LittleEndian::read_u32(&message[68..]),
    })
}
