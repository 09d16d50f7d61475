// Made by tools/plain_rust from crates/lease_texts/src/replies.rt. Changes belong there.

//! Messages of the server as words.
use std::prelude::String;

use crate::proved::lease_texts::fault::LineFault;
use crate::proved::lease_texts::fields::Fields;
use crate::proved::lease_texts::kinds::Field::{Bytes, File, FileId, Message, Notification, Number, Status};
use crate::proved::lease_texts::kinds::{Row, Table};
use crate::proved::lease_texts::said::plain;
use crate::proved::lease_texts::status::GivenStatus;
use smblease::proved::lease_facts::is;
use smblease::proved::lease_state::Reply;
use std::alloc::{AllocError, Global};

/// A message of the server, as a line gives it to a client.
#[derive(Debug, PartialEq, Eq)]
pub struct Arrival {
    /// The message. For a status that the rules don't have stands `STATUS_UNSUCCESSFUL` in it.
    pub reply: Reply,
    /// The number of such a status.
    pub other: Option<u32>,
}

const REPLIES: &[Row] = &[
    Row("created", &[File, FileId, Bytes]),
    Row("createfailed", &[File, Status]),
    Row("readdone", &[FileId, Bytes]),
    Row("readfailed", &[FileId, Status]),
    Row("writedone", &[FileId, Number]),
    Row("writefailed", &[FileId, Number, Status]),
    Row("closed", &[FileId]),
    Row("closefailed", &[FileId, Status]),
    Row("break", &[Notification]),
    Row("ackdone", &[Message]),
    Row("ackfailed", &[Status]),
];

/// What a server sends.
pub fn reply_table() -> Table {
    Table("a message of the server", REPLIES)
}

// A message, with the number of a status that the rules don't have.
fn given(other: Option<u32>, reply: Reply) -> Arrival {
    Arrival { reply, other }
}

fn read_later(word: &[u8], fields: &mut Fields) -> Result<Arrival, LineFault> {
    if is(word, b"closed") {
        let fid = fields.file_id()?;
        Ok(given(None, Reply::Closed { fid }))
    } else if is(word, b"closefailed") {
        let (fid, GivenStatus { status, other }) = (fields.file_id()?, fields.status()?);
        Ok(given(other, Reply::CloseFailed { fid, status }))
    } else if is(word, b"break") {
        Ok(given(None, Reply::Break(fields.notification()?)))
    } else if is(word, b"ackdone") {
        Ok(given(None, Reply::AckDone(fields.message()?)))
    } else if is(word, b"ackfailed") {
        let GivenStatus { status, other } = fields.status()?;
        Ok(given(other, Reply::AckFailed { status }))
    } else {
        Err(LineFault::Refused)
    }
}

fn read_written(word: &[u8], fields: &mut Fields) -> Result<Arrival, LineFault> {
    if is(word, b"writedone") {
        let (fid, number) = (fields.file_id()?, fields.number()?);
        Ok(given(None, Reply::WriteDone { fid, number }))
    } else if is(word, b"writefailed") {
        let (fid, number) = (fields.file_id()?, fields.number()?);
        let GivenStatus { status, other } = fields.status()?;
        let failure = Reply::WriteFailed { fid, number, status };
        Ok(given(other, failure))
    } else {
        read_later(word, fields)
    }
}

// The message of a kind, by its word and the fields after it.
fn read_named(alloc: Global, word: &[u8], fields: &mut Fields) -> Result<Arrival, LineFault> {
    if is(word, b"created") {
        let (file, fid, contexts) = (fields.file()?, fields.file_id()?, fields.bytes(alloc)?);
        let created = Reply::Created { file, fid, contexts };
        Ok(given(None, created))
    } else if is(word, b"createfailed") {
        let (file, GivenStatus { status, other }) = (fields.file()?, fields.status()?);
        Ok(given(other, Reply::CreateFailed { file, status }))
    } else if is(word, b"readdone") {
        let (fid, bytes) = (fields.file_id()?, fields.bytes(alloc)?);
        Ok(given(None, Reply::ReadDone { fid, bytes }))
    } else if is(word, b"readfailed") {
        let (fid, GivenStatus { status, other }) = (fields.file_id()?, fields.status()?);
        Ok(given(other, Reply::ReadFailed { fid, status }))
    } else {
        read_written(word, fields)
    }
}

/// A message of the server, by its word and the fields after it.
///
/// # Errors
///
/// `Refused` where the next fields are none, and `Memory` where there is none left for it.
pub fn read_arrival(alloc: Global, fields: &mut Fields) -> Result<Arrival, LineFault> {
    let word = fields.next()?;
    read_named(alloc, word, fields)
}

// Adds a message, with a space before each of its words.
pub(crate) fn push_reply(text: &mut String, told: &Reply) -> Result<(), AllocError> {
    match told {
        Reply::Created { file, fid, contexts } => plain!(text, "created", File: *file, FileId: *fid, Bytes: contexts.as_slice()),
        Reply::CreateFailed { file, status } => plain!(text, "createfailed", File: *file, Status: *status),
        Reply::ReadDone { fid, bytes } => plain!(text, "readdone", FileId: *fid, Bytes: bytes.as_slice()),
        Reply::ReadFailed { fid, status } => plain!(text, "readfailed", FileId: *fid, Status: *status),
        Reply::WriteDone { fid, number } => plain!(text, "writedone", FileId: *fid, Number: *number),
        Reply::WriteFailed { fid, number, status } => plain!(text, "writefailed", FileId: *fid, Number: *number, Status: *status),
        Reply::Closed { fid } => plain!(text, "closed", FileId: *fid),
        Reply::CloseFailed { fid, status } => plain!(text, "closefailed", FileId: *fid, Status: *status),
        Reply::Break(message) => plain!(text, "break", Notification: message.as_slice()),
        Reply::AckDone(message) => plain!(text, "ackdone", Message: message.as_slice()),
        Reply::AckFailed { status } => plain!(text, "ackfailed", Status: *status),
    }
}
