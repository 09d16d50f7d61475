// Made by tools/plain_rust from crates/capture_wire/src/part.rt. Changes belong there.

use crate::proved::capture_wire::fault::MessageFault;
use crate::proved::lease_wire::HEADER_SIZE;
use byteorder::{ByteOrder, LittleEndian};

/// Sees that the message reaches to the end of its fixed part, counted from the header's start, and that its StructureSize is
/// the one of such messages.
pub(crate) fn check_fixed(message: &[u8], end: usize, size: u16) -> Result<(), MessageFault> {
    if message.len() < end {
        return Err(MessageFault::Short);
    }
    if LittleEndian::read_u16(&message[HEADER_SIZE..]) != size {
        return Err(MessageFault::WrongSize);
    }
    Ok(())
}

/// The part of a message that is so many bytes long, from an offset on; it has to be after the fixed part, unless it is empty.
pub(crate) fn part(message: &[u8], end: usize, offset: u32, count: u32) -> Result<&[u8], MessageFault> {
    if count == 0 {
        return Ok(&[]);
    }
    let (start, after) = (offset as usize, offset as usize + count as usize);
    if start < end || message.len() < after {
        return Err(MessageFault::Outside);
    }
    Ok(&message[start..after])
}

/// The part that an offset of two bytes leads to, which stands at a place with its length of two bytes after it.
pub(crate) fn part_at(message: &[u8], end: usize, place: usize) -> Result<&[u8], MessageFault> {
    let offset = LittleEndian::read_u16(&message[place..]);
    let count = LittleEndian::read_u16(&message[place + 2..]);
    part(message, end, u32::from(offset), u32::from(count))
}
