// Made by tools/plain_rust from crates/capture_wire/src/durable.rt. Changes belong there.

use crate::proved::capture_wire::fault::MessageFault;
use crate::proved::capture_wire::field::{Guid, Smb2FileId, file_id_at, has_flag, sixteen_at};
use byteorder::{ByteOrder, LittleEndian};

const REQUEST_SIZE: usize = 32;

const RESPONSE_SIZE: usize = 8;

const RECONNECT_SIZE: usize = 36;

// SMB2_DHANDLE_FLAG_PERSISTENT
const PERSISTENT: u32 = 2;

/// The value of a `DH2Q` context of a request (MS-SMB2 2.2.13.2.11), by which a durable open is asked for.
#[derive(Clone, Copy, Debug, PartialEq, Eq)]
pub struct DurableRequestV2 {
    /// In milliseconds; 0 leaves it to the server.
    pub timeout: u32,
    /// SMB2_DHANDLE_FLAG_PERSISTENT: a persistent open is asked for.
    pub persistent: bool,
    /// What the client names the create by when it connects again.
    pub create_guid: Guid,
}

/// The value of a `DH2Q` context of a response (MS-SMB2 2.2.14.2.12), by which the open is durable.
#[derive(Clone, Copy, Debug, PartialEq, Eq)]
pub struct DurableResponseV2 {
    /// In milliseconds.
    pub timeout: u32,
    /// SMB2_DHANDLE_FLAG_PERSISTENT: the open is persistent.
    pub persistent: bool,
}

/// The value of a `DH2C` context (MS-SMB2 2.2.13.2.12): the durable open that is to be connected again.
#[derive(Clone, Copy, Debug, PartialEq, Eq)]
pub struct DurableReconnectV2 {
    pub file_id: Smb2FileId,
    pub create_guid: Guid,
    /// SMB2_DHANDLE_FLAG_PERSISTENT: the open is a persistent one.
    pub persistent: bool,
}

/// The value of the data of a `DH2Q` context of a request, which are 32 bytes.
///
/// # Errors
///
/// `WrongLength` where there are fewer bytes, or more; a response has 8 (2.2.14.2.12).
pub fn read_durable_request_v2(bytes: &[u8]) -> Result<DurableRequestV2, MessageFault> {
    if bytes.len() != REQUEST_SIZE {
        return Err(MessageFault::WrongLength);
    }
    Ok(DurableRequestV2 {
        timeout: LittleEndian::read_u32(bytes),
        persistent: has_flag(PERSISTENT, LittleEndian::read_u32(&bytes[4..])),
        create_guid: Guid(sixteen_at(bytes, 16)),
    })
}

/// The value of the data of a `DH2Q` context of a response, which are 8 bytes.
///
/// # Errors
///
/// `WrongLength` where there are fewer bytes, or more; a request has 32 (2.2.13.2.11).
pub fn read_durable_response_v2(bytes: &[u8]) -> Result<DurableResponseV2, MessageFault> {
    if bytes.len() != RESPONSE_SIZE {
        return Err(MessageFault::WrongLength);
    }
    let flags = LittleEndian::read_u32(&bytes[4..]);
    Ok(DurableResponseV2 { timeout: LittleEndian::read_u32(&bytes[0..]), persistent: has_flag(PERSISTENT, flags) })
}

/// The value of the data of a `DH2C` context, which are 36 bytes.
///
/// # Errors
///
/// `WrongLength` where there are fewer bytes, or more.
pub fn read_durable_reconnect_v2(bytes: &[u8]) -> Result<DurableReconnectV2, MessageFault> {
    if bytes.len() != RECONNECT_SIZE {
        return Err(MessageFault::WrongLength);
    }
    Ok(DurableReconnectV2 {
        file_id: file_id_at(bytes, 0),
        create_guid: Guid(sixteen_at(bytes, 16)),
        persistent: has_flag(PERSISTENT, LittleEndian::read_u32(&bytes[32..])),
    })
}
