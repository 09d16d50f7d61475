// Made by tools/plain_rust from crates/lease_texts/src/complaints/expected.rt. Changes belong there.

use std::prelude::String;

use crate::proved::lease_texts::kinds::{Field, Row, Table};
use crate::proved::lease_texts::replies::reply_table;
use crate::proved::lease_texts::requests::request_table;
use std::alloc::AllocError;

/// What is expected in a field of a line.
#[derive(Clone, Copy, Debug)]
pub enum Expected {
    /// The word of a kind in a table.
    Names(Table),
    /// What the field holds.
    Holds(Field),
    /// No more.
    End,
}

// The names of rows, with the last behind "or".
fn push_listed(text: &mut String, rows: &[Row]) -> Result<(), AllocError> {
    match rows {
        [] => Ok(()),
        [one] => text.push_str(one.0),
        [one, last] => {
            text.push_str(one.0)?;
            text.push_str(" or ")?;
            text.push_str(last.0)
        }
        [one, rest @ ..] => {
            text.push_str(one.0)?;
            text.push_str(", ")?;
            push_listed(text, rest)
        }
    }
}

fn push_table(text: &mut String, table: Table) -> Result<(), AllocError> {
    text.push_str(table.0)?;
    text.push_str(", which is ")?;
    push_listed(text, table.1)
}

// What is held by a field that no table is for.
fn held_words(field: Field) -> &'static str {
    match field {
        Field::Client => "a client, which is a number from 1 to 255 without leading zeros",
        Field::File => "a file, which is a number from 1 to 255 without leading zeros",
        Field::FileId => "a FileId, which is a number of at most 64 bits without leading zeros",
        Field::Number => "the number of a write, of at most 64 bits without leading zeros",
        Field::Offset => "an offset, which is a number of at most 32 bits without leading zeros",
        Field::Bytes => "bytes, of two hexadecimal digits each, or - for none",
        Field::Content => "at most 1048576 bytes, of two hexadecimal digits each, or - for none",
        Field::State => "a state, which is none or letters of RWH in that order",
        Field::Access => "an access, which is r, w or rw",
        Field::Share => "what is shared, which is -, r, w or rw",
        Field::Rules => "rules, which are by-client or by-key, a comma, and as-free or whole",
        Field::Way => "the way of a write, which is buffered or through",
        Field::Outcome => "an outcome, which is done, failed, unknown or lost",
        Field::Guid => "a GUID of 32 hexadecimal digits, hyphenated, in braces or as a URN",
        Field::Message => "an acknowledgment of 36 bytes, which are 72 hexadecimal digits",
        Field::Durable => "the word durable or the line's end",
        Field::Key => "a lease key of 16 bytes, which are 32 hexadecimal digits",
        Field::Notification => "a notification of 44 bytes, which are 88 hexadecimal digits",
        Field::Status => "a status, which is a name that begins with STATUS_ or 8 hexadecimal digits",
        Field::Request | Field::Reply => "",
    }
}

fn push_held(text: &mut String, field: Field) -> Result<(), AllocError> {
    match field {
        Field::Request => push_table(text, request_table()),
        Field::Reply => push_table(text, reply_table()),
        _ => text.push_str(held_words(field)),
    }
}

impl Expected {
    /// Adds what is expected, in words.
    pub(crate) fn push(self, text: &mut String) -> Result<(), AllocError> {
        match self {
            Expected::Names(table) => push_table(text, table),
            Expected::Holds(field) => push_held(text, field),
            Expected::End => text.push_str("the line's end"),
        }
    }
}
