// Made by tools/plain_rust from crates/lease_wire/src/message.rt. Changes belong there.

use crate::proved::lease_wire::chain::Contexts;
use crate::proved::lease_wire::create::Direction;
use crate::proved::lease_wire::fault::WireFault;
use byteorder::{ByteOrder, LittleEndian};

/// How many bytes the header of an SMB2 message takes (MS-SMB2 2.2.1).
pub const HEADER_SIZE: usize = 64;

const PROTOCOL_ID: [u8; 4] = [0xfe, b'S', b'M', b'B'];

const NEXT_COMMAND_OFFSET: usize = 20;

/// Whether bytes begin with the ProtocolId of an SMB2 message.
// docs/DECISIONS.md: "show reads a whole message".
pub fn begins_message(bytes: &[u8]) -> bool {
    bytes.starts_with(&PROTOCOL_ID)
}

fn is_next_command_bad(count: usize, next: usize) -> bool {
    next != 0 && (next < HEADER_SIZE || count < next)
}

/// The message that bytes begin with, from its header (MS-SMB2 2.2.1) to where NextCommand has the next one of a compound, or
/// else to the end of the bytes.
///
/// # Errors
///
/// `Short` where there are fewer bytes than a header takes, `WrongSize` where its StructureSize is not 64, and `BadNext` where
/// the next message would begin within the header or past the end of the bytes; each at 0.
pub fn first_message(bytes: &[u8]) -> Result<&[u8], WireFault> {
    if bytes.len() < HEADER_SIZE {
        return Err(WireFault::Short(0));
    }
    if usize::from(LittleEndian::read_u16(&bytes[4..])) != HEADER_SIZE {
        return Err(WireFault::WrongSize(0));
    }
    let next = LittleEndian::read_u32(&bytes[NEXT_COMMAND_OFFSET..]) as usize;
    if is_next_command_bad(bytes.len(), next) {
        return Err(WireFault::BadNext(0));
    }
    Ok(if next == 0 { bytes } else { &bytes[..next] })
}

// The end of the fixed part of a CREATE message, from the header's start.
fn fixed_end(direction: Direction) -> usize {
    match direction {
        Direction::Request => HEADER_SIZE + 56,
        Direction::Reply => HEADER_SIZE + 88,
    }
}

fn create_size(direction: Direction) -> u16 {
    match direction {
        Direction::Request => 57,
        Direction::Reply => 89,
    }
}

// CreateContextsOffset and CreateContextsLength.
fn area(direction: Direction, message: &[u8]) -> (u32, u32) {
    let end = fixed_end(direction);
    (LittleEndian::read_u32(&message[end - 8..]), LittleEndian::read_u32(&message[end - 4..]))
}

fn is_area_bad(count: usize, fixed: usize, offset: u32, many: u32) -> bool {
    many != 0 && ((offset as usize) < fixed || count < offset as usize + many as usize)
}

/// The create contexts of a whole CREATE request or response (MS-SMB2 2.2.13, 2.2.14), which begins with its header, where
/// CreateContextsOffset and CreateContextsLength have them: none where that length is 0. The places of contexts and of their
/// faults count from the header's start.
///
/// # Errors
///
/// `Short` at 64 where the message ends within the fixed part, `WrongSize` at 64 where
/// StructureSize is that of another message, and `BadData` at their start where contexts are not
/// after the fixed part and within the message.
pub fn contexts_of_create(direction: Direction, message: &[u8]) -> Result<Contexts<'_>, WireFault> {
    if message.len() < fixed_end(direction) {
        return Err(WireFault::Short(HEADER_SIZE));
    }
    if LittleEndian::read_u16(&message[HEADER_SIZE..]) != create_size(direction) {
        return Err(WireFault::WrongSize(HEADER_SIZE));
    }
    let (offset, many) = area(direction, message);
    if is_area_bad(message.len(), fixed_end(direction), offset, many) {
        return Err(WireFault::BadData(offset as usize));
    }
    Ok(contexts_in(message, offset, many))
}

// The contexts of an area that is within the message, or that is empty.
fn contexts_in(message: &[u8], offset: u32, many: u32) -> Contexts<'_> {
    let (start, count) = (offset as usize, many as usize);
    if count == 0 { Contexts::from_place(start, &[]) } else { Contexts::from_place(start, &message[start..start + count]) }
}
