// Made by tools/plain_rust from crates/lease_texts/src/commands.rt. Changes belong there.

//! The lines by which a client's application asks something, in schedules and for client machines alike.

use crate::proved::lease_texts::fault::LineFault;
use crate::proved::lease_texts::fields::Fields;
use crate::proved::lease_texts::kinds::Field::{Access, Bytes, Client, Durable, File, Offset, Share, State};
use crate::proved::lease_texts::kinds::Row;
use smblease::proved::lease_client::Command;
use smblease::proved::lease_facts::is;
use smblease::proved::lease_state::{ClientNo, Patch};
use std::alloc::Global;

/// The row of an open, and those of the other commands below.
pub const OPEN: Row = Row("open", &[Client, File, Access, Share, State, Durable]);

pub const CLOSE: Row = Row("close", &[Client, File]);

pub const READ: Row = Row("read", &[Client, File]);

pub const FLUSH: Row = Row("flush", &[Client, File]);

pub const WRITE: Row = Row("write", &[Client, File, Offset, Bytes]);

/// Whether a line that begins with this word is one by which an application asks something.
pub(crate) fn is_command(word: &[u8]) -> bool {
    is(word, b"open") || is(word, b"close") || is(word, b"read") || is(word, b"flush") || is(word, b"write")
}

/// What is asked of which client, by the first word of a line and the fields after it.
///
/// # Errors
///
/// `Refused` where the word begins no such line or the fields don't say what such a line has; `Memory` where there is none left
/// for the bytes of a write.
pub fn read_command(alloc: Global, word: &[u8], fields: &mut Fields) -> Result<(ClientNo, Command), LineFault> {
    if is(word, b"open") {
        let client = fields.client()?;
        let open = Command::Open {
            file: fields.file()?,
            access: fields.access()?,
            share: fields.share()?,
            want: fields.state()?,
            durable: fields.durable()?,
        };
        Ok((client, open))
    } else if is(word, b"close") {
        let (client, file) = (fields.client()?, fields.file()?);
        Ok((client, Command::Close { file }))
    } else if is(word, b"read") {
        let (client, file) = (fields.client()?, fields.file()?);
        Ok((client, Command::Read { file }))
    } else if is(word, b"flush") {
        let (client, file) = (fields.client()?, fields.file()?);
        Ok((client, Command::Flush { file }))
    } else if is(word, b"write") {
        let (client, file) = (fields.client()?, fields.file()?);
        let (offset, bytes) = (fields.offset()?, fields.bytes(alloc)?);
        let patch = Patch { offset, bytes };
        Ok((client, Command::Write { file, patch }))
    } else {
        Err(LineFault::Refused)
    }
}
