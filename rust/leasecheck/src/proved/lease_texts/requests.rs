// Made by tools/plain_rust from crates/lease_texts/src/requests.rt. Changes belong there.

//! Requests in a client's name as words, after the client.
use std::prelude::String;

use crate::proved::lease_texts::fault::LineFault;
use crate::proved::lease_texts::fields::Fields;
use crate::proved::lease_texts::kinds::Field::{Access, Bytes, File, FileId, Message, Number, Offset, Share};
use crate::proved::lease_texts::kinds::{Row, Table};
use crate::proved::lease_texts::said::plain;
use smblease::proved::lease_facts::is;
use smblease::proved::lease_state::{Patch, Request};
use std::alloc::{AllocError, Global};

const REQUESTS: &[Row] = &[
    Row("create", &[File, Access, Share, Bytes]),
    Row("read", &[FileId]),
    Row("close", &[FileId]),
    Row("write", &[FileId, Number, Offset, Bytes]),
    Row("ack", &[Message]),
];

/// What is asked in a client's name.
pub fn request_table() -> Table {
    Table("a request", REQUESTS)
}

fn read_named(alloc: Global, word: &[u8], fields: &mut Fields) -> Result<Request, LineFault> {
    if is(word, b"create") {
        Ok(Request::Create {
            file: fields.file()?,
            access: fields.access()?,
            share: fields.share()?,
            contexts: fields.bytes(alloc)?,
        })
    } else if is(word, b"read") {
        let fid = fields.file_id()?;
        Ok(Request::Read { fid })
    } else if is(word, b"close") {
        let fid = fields.file_id()?;
        Ok(Request::Close { fid })
    } else if is(word, b"write") {
        Ok(Request::Write {
            fid: fields.file_id()?,
            number: fields.number()?,
            patch: Patch { offset: fields.offset()?, bytes: fields.bytes(alloc)? },
        })
    } else if is(word, b"ack") {
        Ok(Request::Ack(fields.message()?))
    } else {
        Err(LineFault::Refused)
    }
}

/// A request, by its word and the fields after it.
///
/// # Errors
///
/// `Refused` where the next fields are none, and `Memory` where there is none left for it.
pub fn read_request(alloc: Global, fields: &mut Fields) -> Result<Request, LineFault> {
    let word = fields.next()?;
    read_named(alloc, word, fields)
}

/// Adds a request as its line has it after the client, with a space before each of its words.
pub fn push_request(text: &mut String, asked: &Request) -> Result<(), AllocError> {
    match asked {
        Request::Create { file, access, share, contexts } => {
            plain!(text, "create", File: *file, Access: *access, Share: *share, Bytes: contexts.as_slice())
        }
        Request::Read { fid } => plain!(text, "read", FileId: *fid),
        Request::Close { fid } => plain!(text, "close", FileId: *fid),
        Request::Write { fid, number, patch } => {
            plain!(text, "write", FileId: *fid, Number: *number, Offset: patch.offset, Bytes: patch.bytes.as_slice())
        }
        Request::Ack(message) => plain!(text, "ack", Message: message.as_slice()),
    }
}
