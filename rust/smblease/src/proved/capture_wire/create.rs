// Made by tools/plain_rust from crates/capture_wire/src/create.rt. Changes belong there.

use crate::proved::capture_wire::fault::MessageFault;
use crate::proved::capture_wire::field::{Smb2FileId, file_id_at};
use crate::proved::capture_wire::part::{check_fixed, part_at};
use byteorder::{ByteOrder, LittleEndian};

const REQUEST_END: usize = 120;

const RESPONSE_END: usize = 152;

/// A CREATE request (MS-SMB2 2.2.13) without its create contexts, which `lease_wire::contexts_of_create` reads.
#[derive(Clone, Copy, Debug, PartialEq, Eq)]
pub struct CreateRequest<'a> {
    /// RequestedOplockLevel: 0xff where a lease is asked for.
    pub oplock_level: u8,
    pub desired_access: u32,
    pub share_access: u32,
    /// CreateDisposition: whether the file is opened, made, or made anew.
    pub disposition: u32,
    /// CreateOptions.
    pub options: u32,
    /// The file's name below the share, in UTF-16LE; that of the share's root is empty.
    pub name: &'a [u8],
}

/// A CREATE response (MS-SMB2 2.2.14) without its create contexts.
#[derive(Clone, Copy, Debug, PartialEq, Eq)]
pub struct CreateResponse {
    /// OplockLevel: 0xff where a lease is granted.
    pub oplock_level: u8,
    /// CreateAction: whether the file was opened, made, or made anew.
    pub action: u32,
    /// CreationTime: when the file was made, in units of 100 ns.
    pub creation_time: u64,
    /// FileAttributes.
    pub attributes: u32,
    pub file_id: Smb2FileId,
}

/// Reads a CREATE request, from its header on.
///
/// # Errors
///
/// `Short` where the message ends within the fixed part, `WrongSize` where StructureSize is not 57, and `Outside` where the name
/// is not after the fixed part and within the message.
pub fn read_create_request(message: &[u8]) -> Result<CreateRequest<'_>, MessageFault> {
    check_fixed(message, REQUEST_END, 57)?;
    let name = part_at(message, REQUEST_END, 108)?;
    Ok(CreateRequest {
        oplock_level: message[67],
        desired_access: LittleEndian::read_u32(&message[88..]),
        share_access: LittleEndian::read_u32(&message[96..]),
        disposition: LittleEndian::read_u32(&message[100..]),
        options: LittleEndian::read_u32(&message[104..]),
        name,
    })
}

/// Reads a CREATE response, from its header on.
///
/// # Errors
///
/// `Short` where the message ends within the fixed part, and `WrongSize` where StructureSize is not 89.
pub fn read_create_response(message: &[u8]) -> Result<CreateResponse, MessageFault> {
    check_fixed(message, RESPONSE_END, 89)?;
    Ok(CreateResponse {
        oplock_level: message[66],
        action: LittleEndian::read_u32(&message[68..]),
        creation_time: LittleEndian::read_u64(&message[72..]),
        attributes: LittleEndian::read_u32(&message[120..]),
        file_id: file_id_at(message, 128),
    })
}
