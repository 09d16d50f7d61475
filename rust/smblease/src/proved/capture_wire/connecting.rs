// Made by tools/plain_rust from crates/capture_wire/src/connecting.rt. Changes belong there.

use crate::proved::capture_wire::fault::MessageFault;
use crate::proved::capture_wire::field::{Guid, has_flag, sixteen_at};
use crate::proved::capture_wire::part::{check_fixed, part, part_at};
use byteorder::{ByteOrder, LittleEndian};

// Where the dialects of a NEGOTIATE request begin.
const DIALECTS_OFFSET: usize = 100;

// SMB2_SESSION_FLAG_BINDING
const BINDING: u32 = 1;

/// A NEGOTIATE request (MS-SMB2 2.2.3), by which a connection begins.
#[derive(Clone, Copy, Debug, PartialEq, Eq)]
pub struct NegotiateRequest<'a> {
    /// The client's; zeros from a client that knows dialect 2.0.2 alone.
    pub client_guid: Guid,
    /// The dialects that the client offers, two bytes each, the lower one first.
    pub dialects: &'a [u8],
}

impl NegotiateRequest<'_> {
    /// Whether the client offers the dialect, as 0x0210 for 2.1.
    pub fn offers(&self, dialect: u16) -> bool {
        let dialects = self.dialects;
        for index in 0..dialects.len() / 2 {
            if LittleEndian::read_u16(&dialects[2 * index..]) == dialect {
                return true;
            }
        }
        false
    }
}

/// A NEGOTIATE response (MS-SMB2 2.2.4).
#[derive(Clone, Copy, Debug, PartialEq, Eq)]
pub struct NegotiateResponse {
    /// The dialect that the server chose, as 0x0210 for 2.1.
    pub dialect_revision: u16,
    pub server_guid: Guid,
}

/// A SESSION_SETUP request (MS-SMB2 2.2.5).
#[derive(Clone, Copy, Debug, PartialEq, Eq)]
pub struct SessionSetupRequest {
    /// SMB2_SESSION_FLAG_BINDING: the connection becomes a further channel of the header's session.
    pub binding: bool,
    /// The session that the client had before and that this one stands for, or 0.
    pub previous_session_id: u64,
}

/// A TREE_CONNECT request (MS-SMB2 2.2.9).
#[derive(Clone, Copy, Debug, PartialEq, Eq)]
pub struct TreeConnectRequest<'a> {
    /// The share, as `\\server\share` in UTF-16LE.
    pub path: &'a [u8],
}

/// Reads a NEGOTIATE request, from its header on.
///
/// # Errors
///
/// `Short` where the message ends within the fixed part, `WrongSize` where StructureSize is not 36, and `Outside` where it ends
/// within the dialects.
pub fn read_negotiate_request(message: &[u8]) -> Result<NegotiateRequest<'_>, MessageFault> {
    check_fixed(message, DIALECTS_OFFSET, 36)?;
    let count = u32::from(LittleEndian::read_u16(&message[66..]));
    let dialects = part(message, DIALECTS_OFFSET, DIALECTS_OFFSET as u32, 2 * count)?;
    Ok(NegotiateRequest { client_guid: Guid(sixteen_at(message, 76)), dialects })
}

/// Reads a NEGOTIATE response, from its header on.
///
/// # Errors
///
/// `Short` where the message ends within the fixed part, and `WrongSize` where StructureSize is not 65.
pub fn read_negotiate_response(message: &[u8]) -> Result<NegotiateResponse, MessageFault> {
    check_fixed(message, 128, 65)?;
    Ok(NegotiateResponse { dialect_revision: LittleEndian::read_u16(&message[68..]), server_guid: Guid(sixteen_at(message, 72)) })
}

/// Reads a SESSION_SETUP request, from its header on.
///
/// # Errors
///
/// `Short` where the message ends within the fixed part, and `WrongSize` where StructureSize is not 25.
pub fn read_session_setup_request(message: &[u8]) -> Result<SessionSetupRequest, MessageFault> {
    check_fixed(message, 88, 25)?;
    Ok(SessionSetupRequest {
        binding: has_flag(BINDING, u32::from(message[66])),
        previous_session_id: LittleEndian::read_u64(&message[80..]),
    })
}

/// Reads a TREE_CONNECT request, from its header on.
///
/// # Errors
///
/// `Short` where the message ends within the fixed part, `WrongSize` where StructureSize is not 9, and `Outside` where the path
/// is not after the fixed part and within the message.
pub fn read_tree_connect_request(message: &[u8]) -> Result<TreeConnectRequest<'_>, MessageFault> {
    check_fixed(message, 72, 9)?;
    let path = part_at(message, 72, 68)?;
    Ok(TreeConnectRequest { path })
}
