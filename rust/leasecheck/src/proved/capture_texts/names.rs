// Made by tools/plain_rust from crates/capture_texts/src/names.rt. Changes belong there.

use std::prelude::Vec;

use crate::proved::capture_texts::line::Said;
use smblease::proved::capture_wire::{Command, Header, read_header};
use smblease::proved::lease_state::Memory;
use smblease::proved::lease_wire::first_message;
use std::alloc::{AllocError, Global};

/// What a message is to others.
#[derive(Clone, Copy, Debug, PartialEq, Eq)]
pub enum MessagePart {
    Request,
    Response,
    /// A response to no request, as a break is: its MessageId has all bits (MS-SMB2 2.2.23).
    Notification,
}

/// The name of a message, by its header (MS-SMB2 2.2.1).
#[derive(Clone, Copy, Debug, PartialEq, Eq)]
pub struct MessageName {
    pub command: Command,
    pub part: MessagePart,
}

/// The names of the messages of a frame, in their order. Contracts see the list of them.
#[derive(Debug)]
pub struct MessageNames {
    items: Vec<MessageName>,
}

impl MessageNames {
    /// The names, in order.
    pub fn as_slice(&self) -> &[MessageName] {
        self.items.as_slice()
    }

    /// Equal names in memory of their own.
    ///
    /// # Errors
    ///
    /// `Memory` where there is none left.
    pub(crate) fn try_copy(&self) -> Result<MessageNames, Memory> {
        let items = Vec::from_slice(*self.items.allocator(), self.items.as_slice())?;
        Ok(MessageNames { items })
    }
}

fn part_of(header: &Header) -> MessagePart {
    match (header.response, header.message_id) {
        (false, _) => MessagePart::Request,
        (true, u64::MAX) => MessagePart::Notification,
        (true, _) => MessagePart::Response,
    }
}

fn name_of(header: &Header) -> MessageName {
    MessageName { command: Command::of(header.command), part: part_of(header) }
}

// The name of the message that bytes begin with, and how many it takes; `None` where its header can't be read.
fn first_name(bytes: &[u8]) -> Option<(MessageName, usize)> {
    let header = read_header(bytes).ok()?;
    let first = first_message(bytes).ok()?;
    Some((name_of(&header), first.len()))
}

fn names_in(alloc: Global, bytes: &[u8]) -> Result<MessageNames, AllocError> {
    let mut items = Vec::new(alloc);
    let mut rest = bytes;
    while let Some((name, size)) = first_name(rest) {
        items.push(name)?;
        rest = rest.split_at(size).1;
    }
    Ok(MessageNames { items })
}

/// The names of the messages of a line: a gap or an end has none.
pub(crate) fn names_said(alloc: Global, said: &Said) -> Result<MessageNames, AllocError> {
    match said {
        Said::Frame(frame) => names_in(alloc, frame.bytes.as_slice()),
        Said::Gap | Said::End => Ok(MessageNames { items: Vec::new(alloc) }),
    }
}
