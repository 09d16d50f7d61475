// Made by tools/plain_rust from crates/lease_texts/src/complaints/finding.rt. Changes belong there.

use crate::proved::lease_texts::complaints::Expected;
use crate::proved::lease_texts::fault::LineFault;
use crate::proved::lease_texts::fields::Fields;
use crate::proved::lease_texts::kinds::{Field, Table};
use crate::proved::lease_texts::replies::reply_table;
use crate::proved::lease_texts::requests::request_table;
use crate::proved::lease_texts::status::status_in;
use crate::proved::lease_texts::words::{
    access_in, bytes_in, content_in, guid_in, number_in, offset_in, ordinal_in, outcome_in, rules_in, share_in, sized_in,
    state_in, way_in,
};
use smblease::proved::lease_facts::is;
use smblease::proved::lease_state::Bytes;
use std::alloc::Global;

/// What is wrong with a line: the first field that holds something else than was expected there.
#[derive(Clone, Copy, Debug)]
pub struct Complaint<'a> {
    /// The field's number, from 1.
    pub field: u64,
    pub expected: Expected,
    /// What stands there; none where the line ends before it.
    pub found: Option<&'a [u8]>,
    /// Whether the line ends after it.
    pub is_last: bool,
}

// The fields after the word of a kind in a table.
fn fields_behind(table: Table, word: &[u8]) -> Option<&'static [Field]> {
    for row in table.1 {
        if is(word, row.0.as_bytes()) {
            return Some(row.1);
        }
    }
    None
}

fn is_read(read: Result<Bytes, LineFault>) -> Result<bool, LineFault> {
    match read {
        Ok(_) => Ok(true),
        Err(LineFault::Refused) => Ok(false),
        Err(LineFault::Memory) => Err(LineFault::Memory),
    }
}

// Whether a word says a value of a field that takes one.
fn does_say(alloc: Global, field: Field, word: &[u8]) -> Result<bool, LineFault> {
    match field {
        Field::Client | Field::File => Ok(ordinal_in(word).is_some()),
        Field::FileId | Field::Number => Ok(number_in(word).is_some()),
        Field::Offset => Ok(offset_in(word).is_some()),
        Field::Bytes => is_read(bytes_in(alloc, word)),
        Field::Content => is_read(content_in(alloc, word)),
        Field::State => Ok(state_in(word).is_some()),
        Field::Access => Ok(access_in(word).is_some()),
        Field::Share => Ok(share_in(word).is_some()),
        Field::Rules => Ok(rules_in(word).is_some()),
        Field::Way => Ok(way_in(word).is_some()),
        Field::Outcome => Ok(outcome_in(word).is_some()),
        Field::Guid => Ok(guid_in(word).is_some()),
        Field::Message => Ok(sized_in::<36>(word).is_some()),
        Field::Key => Ok(sized_in::<16>(word).is_some()),
        Field::Notification => Ok(sized_in::<44>(word).is_some()),
        Field::Status => Ok(status_in(word).is_some()),
        Field::Durable | Field::Request | Field::Reply => Ok(false),
    }
}

fn if_fits(fits: bool, rest: &'static [Field]) -> Option<&'static [Field]> {
    if fits { Some(rest) } else { None }
}

// The fields that are expected after a word, where the word is one that was expected.
fn behind(alloc: Global, field: Field, word: &[u8], rest: &'static [Field]) -> Result<Option<&'static [Field]>, LineFault> {
    match field {
        Field::Request => Ok(fields_behind(request_table(), word)),
        Field::Reply => Ok(fields_behind(reply_table(), word)),
        Field::Durable => Ok(if_fits(is(word, b"durable"), rest)),
        _ => Ok(if_fits(does_say(alloc, field, word)?, rest)),
    }
}

// A word that isn't what is expected in the field of a number, and those behind it.
fn stands<'a>(field: u64, expected: Expected, word: &'a [u8], behind: &Fields<'a>) -> Complaint<'a> {
    Complaint { field, expected, found: Some(word), is_last: behind.is_done() }
}

// A line that ends before the field of a number.
fn at_end<'a>(number: u64, fields: &'static [Field]) -> Option<Complaint<'a>> {
    match fields {
        [] | [Field::Durable, ..] => None,
        [field, ..] => Some(Complaint { field: number, expected: Expected::Holds(*field), found: None, is_last: true }),
    }
}

// The first field, from the second on, at which the words after the first leave what is expected.
fn leaves<'a>(alloc: Global, first: &'static [Field], words: &mut Fields<'a>) -> Result<Option<Complaint<'a>>, LineFault> {
    let mut expected = first;
    for field in 2..u64::MAX {
        let Ok(word) = words.next() else {
            return Ok(at_end(field, expected));
        };
        let [one, rest @ ..] = expected else {
            return Ok(Some(stands(field, Expected::End, word, words)));
        };
        match behind(alloc, *one, word, rest)? {
            Some(more) => expected = more,
            None => return Ok(Some(stands(field, Expected::Holds(*one), word, words))),
        }
    }
    Err(LineFault::Memory)
}

/// Why a line is none of a table, and none where it is one.
///
/// # Errors
///
/// `Memory` where there is none for what the line holds.
pub fn complaint_about<'a>(alloc: Global, table: Table, line: &'a [u8]) -> Result<Option<Complaint<'a>>, LineFault> {
    let mut words = Fields::of(line);
    let Ok(word) = words.next() else {
        return Ok(Some(Complaint { field: 1, expected: Expected::Names(table), found: None, is_last: true }));
    };
    match fields_behind(table, word) {
        Some(fields) => leaves(alloc, fields, &mut words),
        None => Ok(Some(stands(1, Expected::Names(table), word, &words))),
    }
}
