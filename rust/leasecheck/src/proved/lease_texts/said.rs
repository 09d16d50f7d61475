// Made by tools/plain_rust from crates/lease_texts/src/said.rt. Changes belong there.

//! Lines that are written: a word, and what the fields after it hold.
use std::prelude::String;

use crate::proved::lease_texts::replies::push_reply;
use crate::proved::lease_texts::requests::push_request;
use crate::proved::lease_texts::status::status_word;
use crate::proved::lease_texts::words::{
    access_word, digits_of, outcome_word, push_number, rules_word, share_word, state_letters,
};
use smblease::proved::lease_client::Settlement;
use smblease::proved::lease_state::{
    Access, ClientNo, FileId, FileNo, LeaseKey, LeaseState, Reply, Request, Rules, Share, Status,
};
use std::alloc::AllocError;
use std::ports::uuid::Uuid;

// Adds a line by its word, and by its fields with what they hold.
macro_rules! line {
    ($text:expr, $name:literal $(, $field:ident: $value:expr)*) => {
        $crate::proved::lease_texts::said::push_line($text, $name, &[$($crate::proved::lease_texts::said::Said::$field($value)),*])
    };
}

// Adds a word behind a space, and fields of one word each.
macro_rules! plain {
    ($text:expr, $name:literal $(, $field:ident: $value:expr)*) => {
        $crate::proved::lease_texts::said::push_plain($text, $name, &[$($crate::proved::lease_texts::said::Said::$field($value)),*])
    };
}

pub(crate) use line;
pub(crate) use plain;

/// A field with what it holds.
#[derive(Clone, Copy, Debug)]
pub enum Said<'a> {
    Client(ClientNo),
    File(FileNo),
    FileId(FileId),
    Number(u64),
    Offset(u32),
    Bytes(&'a [u8]),
    Content(&'a [u8]),
    State(LeaseState),
    Access(Access),
    Share(Share),
    Rules(Rules),
    Way(bool),
    Outcome(Settlement),
    Guid(&'a [u8; 16]),
    Message(&'a [u8]),
    Durable(bool),
    Key(LeaseKey),
    Notification(&'a [u8]),
    Status(Status),
    Request(&'a Request),
    Reply(&'a Reply),
}

// The digits of bytes.
fn push_bytes(text: &mut String, bytes: &[u8]) -> Result<(), AllocError> {
    let digits = digits_of(*text.allocator(), bytes)?;
    text.push_str(digits.as_str())
}

fn push_message(text: &mut String, message: &[u8]) -> Result<(), AllocError> {
    let digits = std::ports::hex::encode(*text.allocator(), message)?;
    text.push_str(digits.as_str())
}

fn push_guid(text: &mut String, guid: &[u8; 16]) -> Result<(), AllocError> {
    let mut buffer = [0; 36];
    let digits = Uuid::from_bytes(*guid).hyphenated().encode_lower(&mut buffer);
    text.push_str(digits)
}

// The word of a field that takes one, behind a space.
fn push_plain_field(text: &mut String, said: &Said<'_>) -> Result<(), AllocError> {
    text.push_str(" ")?;
    match said {
        Said::Client(client) => push_number(text, u64::from(client.0)),
        Said::File(file) => push_number(text, u64::from(file.0)),
        Said::FileId(fid) => push_number(text, fid.0),
        Said::Number(number) => push_number(text, *number),
        Said::Offset(offset) => push_number(text, u64::from(*offset)),
        Said::Bytes(bytes) | Said::Content(bytes) => push_bytes(text, bytes),
        Said::State(state) => text.push_str(state_letters(*state)),
        Said::Access(access) => text.push_str(access_word(*access)),
        Said::Share(share) => text.push_str(share_word(*share)),
        Said::Rules(rules) => text.push_str(rules_word(*rules)),
        Said::Way(buffered) => text.push_str(if *buffered { "buffered" } else { "through" }),
        Said::Outcome(outcome) => text.push_str(outcome_word(*outcome)),
        Said::Guid(guid) => push_guid(text, guid),
        Said::Key(key) => push_message(text, key.0.as_slice()),
        Said::Message(message) | Said::Notification(message) => push_message(text, message),
        Said::Status(status) => text.push_str(status_word(*status)),
        Said::Durable(_) | Said::Request(_) | Said::Reply(_) => Ok(()),
    }
}

fn push_plain_fields(text: &mut String, said: &[Said<'_>]) -> Result<(), AllocError> {
    for one in said {
        push_plain_field(text, one)?;
    }
    Ok(())
}

/// Adds a word and fields of one word each, with a space before each of them.
pub(crate) fn push_plain(text: &mut String, name: &str, said: &[Said<'_>]) -> Result<(), AllocError> {
    text.push_str(" ")?;
    text.push_str(name)?;
    push_plain_fields(text, said)
}

// A field with what stands before its words.
fn push_field(text: &mut String, said: &Said<'_>) -> Result<(), AllocError> {
    match said {
        Said::Durable(durable) => text.push_str(if *durable { " durable" } else { "" }),
        Said::Request(asked) => push_request(text, asked),
        Said::Reply(told) => push_reply(text, told),
        _ => push_plain_field(text, said),
    }
}

fn push_fields(text: &mut String, said: &[Said<'_>]) -> Result<(), AllocError> {
    for one in said {
        push_field(text, one)?;
    }
    Ok(())
}

/// Adds a line: its first word, and what the fields after it hold.
pub fn push_line(text: &mut String, name: &str, said: &[Said<'_>]) -> Result<(), AllocError> {
    text.push_str(name)?;
    push_fields(text, said)?;
    text.push_str("\n")
}
