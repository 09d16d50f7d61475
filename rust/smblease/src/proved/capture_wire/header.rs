// Made by tools/plain_rust from crates/capture_wire/src/header.rt. Changes belong there.

use crate::proved::capture_wire::fault::MessageFault;
use crate::proved::capture_wire::field::has_flag;
use crate::proved::lease_wire::{HEADER_SIZE, begins_message};
use byteorder::{ByteOrder, LittleEndian};

const FLAGS_OFFSET: usize = 16;

// SMB2_FLAGS_SERVER_TO_REDIR
const SERVER_TO_REDIR: u32 = 1;

// SMB2_FLAGS_ASYNC_COMMAND
const ASYNC_COMMAND: u32 = 2;

// SMB2_FLAGS_RELATED_OPERATIONS
const RELATED_OPERATIONS: u32 = 4;

/// What a message belongs to besides its session.
#[derive(Clone, Copy, Debug, PartialEq, Eq)]
pub enum TreeOrAsync {
    /// TreeId, in a synchronous header.
    TreeId(u32),
    /// AsyncId, in an asynchronous one, which has no TreeId.
    AsyncId(u64),
}

/// The header of a message (MS-SMB2 2.2.1), as far as it identifies the message.
#[derive(Clone, Copy, Debug, PartialEq, Eq)]
pub struct Header {
    /// Status of a response; a request of dialect 3 has ChannelSequence there.
    pub status: u32,
    pub command: u16,
    /// SMB2_FLAGS_SERVER_TO_REDIR: the server sent it.
    pub response: bool,
    /// SMB2_FLAGS_RELATED_OPERATIONS: it goes by the ids of the message before it in its compound.
    pub related: bool,
    /// Where the next message of the compound begins, in bytes from this header's start, or 0.
    pub next_command: u32,
    pub message_id: u64,
    pub tree_or_async: TreeOrAsync,
    pub session_id: u64,
}

fn tree_or_async(bytes: &[u8]) -> TreeOrAsync {
    if has_flag(ASYNC_COMMAND, LittleEndian::read_u32(&bytes[FLAGS_OFFSET..])) {
        TreeOrAsync::AsyncId(LittleEndian::read_u64(&bytes[32..]))
    } else {
        TreeOrAsync::TreeId(LittleEndian::read_u32(&bytes[36..]))
    }
}

/// The header that bytes begin with. Where NextCommand leads is not looked at: `lease_wire::first_message` does.
///
/// # Errors
///
/// `Short` where there are fewer bytes than a header takes, `WrongProtocol` where ProtocolId is another (as in a message that is
/// encrypted or compressed), and `WrongSize` where StructureSize is not 64.
pub fn read_header(bytes: &[u8]) -> Result<Header, MessageFault> {
    if bytes.len() < HEADER_SIZE {
        return Err(MessageFault::Short);
    }
    if !begins_message(bytes) {
        return Err(MessageFault::WrongProtocol);
    }
    if usize::from(LittleEndian::read_u16(&bytes[4..])) != HEADER_SIZE {
        return Err(MessageFault::WrongSize);
    }
    let flags = LittleEndian::read_u32(&bytes[FLAGS_OFFSET..]);
    Ok(Header {
        status: LittleEndian::read_u32(&bytes[8..]),
        command: LittleEndian::read_u16(&bytes[12..]),
        response: has_flag(SERVER_TO_REDIR, flags),
        related: has_flag(RELATED_OPERATIONS, flags),
        next_command: LittleEndian::read_u32(&bytes[20..]),
        message_id: LittleEndian::read_u64(&bytes[24..]),
        tree_or_async: tree_or_async(bytes),
        session_id: LittleEndian::read_u64(&bytes[40..]),
    })
}
