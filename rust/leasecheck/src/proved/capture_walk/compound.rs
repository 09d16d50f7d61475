// Made by tools/plain_rust from crates/capture_walk/src/compound.rt. Changes belong there.

use std::prelude::Vec;

use byteorder::{ByteOrder, LittleEndian};
use smblease::proved::capture_wire::{Message, Unreadable, read_message};
use smblease::proved::lease_state::Memory;
use smblease::proved::lease_wire::{WireFault, first_message};
use std::alloc::Global;

/// Why the messages of a frame can't be read.
#[derive(Clone, Copy, Debug, PartialEq, Eq)]
pub enum FrameFault {
    /// A header, or where it has the next message.
    Header(WireFault),
    /// What a message says.
    Message(Unreadable),
    /// There is no memory left.
    Memory,
}

impl From<WireFault> for FrameFault {
    fn from(found: WireFault) -> FrameFault {
        FrameFault::Header(found)
    }
}

impl From<Unreadable> for FrameFault {
    fn from(found: Unreadable) -> FrameFault {
        FrameFault::Message(found)
    }
}

impl From<Memory> for FrameFault {
    fn from(_refused: Memory) -> FrameFault {
        FrameFault::Memory
    }
}

// Whether no message follows the first one.
fn is_last(bytes: &[u8]) -> bool {
    LittleEndian::read_u32(&bytes[20..]) == 0
}

// The first message, with the bytes that it takes.
fn read_first(bytes: &[u8]) -> Result<(Message<'_>, usize), FrameFault> {
    let first = first_message(bytes)?;
    let message = read_message(first)?;
    Ok((message, first.len()))
}

fn push<'a>(messages: &mut Vec<Message<'a>>, message: Message<'a>) -> Result<(), Memory> {
    messages.push(message)?;
    Ok(())
}

/// The messages of a frame: one, or those of a compound.
///
/// # Errors
///
/// `Header` and `Message` for the first message that can't be read, and `Memory` where there is none left.
pub fn read_frame(alloc: Global, bytes: &[u8]) -> Result<Vec<Message<'_>>, FrameFault> {
    let mut messages = Vec::new(alloc);
    let mut rest = bytes;
    loop {
        let (message, size) = match read_first(rest) {
            Ok(first) => first,
            Err(fault) => return Err(fault),
        };
        push(&mut messages, message)?;
        if is_last(rest) {
            return Ok(messages);
        }
        rest = rest.split_at(size).1;
    }
}
