// Made by tools/plain_rust from crates/capture_wire/src/set_info.rt. Changes belong there.

use crate::proved::capture_wire::fault::MessageFault;
use crate::proved::capture_wire::field::{Smb2FileId, file_id_at};
use crate::proved::capture_wire::part::{check_fixed, part};
use byteorder::{ByteOrder, LittleEndian};

const FIXED_END: usize = 96;

// Where the name of a rename begins.
const NAME_OFFSET: usize = 20;

/// A SET_INFO request (MS-SMB2 2.2.39).
#[derive(Clone, Copy, Debug, PartialEq, Eq)]
pub struct SetInfoRequest<'a> {
    /// InfoType: 1 where it is about a file.
    pub info_type: u8,
    /// FileInfoClass: of a file 10 for a rename, and 13 for a deletion (MS-FSCC 2.4).
    pub class: u8,
    pub file_id: Smb2FileId,
    /// What is set, laid out by its class.
    pub buffer: &'a [u8],
}

/// The buffer of a rename: FileRenameInformation of SMB2 (MS-FSCC 2.4.37.2).
#[derive(Clone, Copy, Debug, PartialEq, Eq)]
pub struct Rename<'a> {
    /// A file that has the new name already is replaced.
    pub replace_if_exists: bool,
    /// The new name below the share, in UTF-16LE.
    pub name: &'a [u8],
}

/// Reads a SET_INFO request, from its header on.
///
/// # Errors
///
/// `Short` where the message ends within the fixed part, `WrongSize` where StructureSize is not 33, and `Outside` where the
/// buffer is not after the fixed part and within the message.
pub fn read_set_info_request(message: &[u8]) -> Result<SetInfoRequest<'_>, MessageFault> {
    check_fixed(message, FIXED_END, 33)?;
    let offset = u32::from(LittleEndian::read_u16(&message[72..]));
    let count = LittleEndian::read_u32(&message[68..]);
    let buffer = part(message, FIXED_END, offset, count)?;
    Ok(SetInfoRequest { info_type: message[66], class: message[67], file_id: file_id_at(message, 80), buffer })
}

/// Reads the buffer of a SET_INFO request that renames a file.
///
/// # Errors
///
/// `Short` where there are fewer bytes than 20, and `Outside` where the buffer ends within the name.
pub fn read_rename(buffer: &[u8]) -> Result<Rename<'_>, MessageFault> {
    if buffer.len() < NAME_OFFSET {
        return Err(MessageFault::Short);
    }
    let count = LittleEndian::read_u32(&buffer[16..]);
    let name = part(buffer, NAME_OFFSET, NAME_OFFSET as u32, count)?;
    Ok(Rename { replace_if_exists: buffer[0] != 0, name })
}

/// Reads the buffer of a SET_INFO request of the class FileDispositionInformation (MS-FSCC 2.4.11): whether the file is to be
/// deleted when its last open is closed.
///
/// # Errors
///
/// `Short` where the buffer has no byte.
pub fn read_disposition(buffer: &[u8]) -> Result<bool, MessageFault> {
    if buffer.is_empty() {
        return Err(MessageFault::Short);
    }
    Ok(buffer[0] != 0)
}
