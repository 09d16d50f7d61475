// Made by tools/plain_rust from crates/lease_texts/src/complaints/telling.rt. Changes belong there.

use std::prelude::String;

use crate::proved::lease_texts::complaints::{Complaint, Expected};
use crate::proved::lease_texts::quoting::push_quoted;
use std::alloc::{AllocError, Global};

fn has(byte: u8, word: &[u8]) -> bool {
    word.iter().any(|other| *other == byte)
}

fn has_mark(word: &[u8]) -> bool {
    word.starts_with(&[0xef, 0xbb, 0xbf])
}

// What was put there by mistake.
fn hint(word: &[u8]) -> &'static str {
    if has_mark(word) {
        ", with a byte order mark"
    } else if has(b'\r', word) {
        ", with the carriage return of a Windows line end"
    } else if has(b'\t', word) {
        ", with a tab"
    } else {
        ""
    }
}

// An empty field.
fn blank_words(number: u64, last: bool) -> &'static str {
    if number == 1 {
        "the line begins with a space or is empty"
    } else if last {
        "the line ends with a space"
    } else {
        "two spaces stand before it"
    }
}

fn push_word(alloc: Global, text: &mut String, word: &[u8]) -> Result<(), AllocError> {
    text.push_str("it is ")?;
    push_quoted(alloc, text, word)?;
    text.push_str(hint(word))
}

fn push_found(alloc: Global, text: &mut String, complaint: &Complaint<'_>) -> Result<(), AllocError> {
    match complaint.found {
        None => text.push_str("the line ends before it"),
        Some([]) => text.push_str(blank_words(complaint.field, complaint.is_last)),
        Some(word) => push_word(alloc, text, word),
    }
}

fn push_expected(text: &mut String, field: u64, expected: Expected) -> Result<(), AllocError> {
    write!(text, "field {field}: ")?;
    expected.push(text)?;
    text.push_str("; ")
}

/// Says what was expected in which field, and what stands there.
pub fn push_complaint(alloc: Global, text: &mut String, complaint: &Complaint<'_>) -> Result<(), AllocError> {
    push_expected(text, complaint.field, complaint.expected)?;
    push_found(alloc, text, complaint)
}

// What stands before a complaint: the number of the line that it is about.
fn push_line_number(text: &mut String, number: u64) -> Result<(), AllocError> {
    write!(text, "line {number}, ")
}

/// The same as a line, with the number of the line that it is about.
pub fn push_complaint_line(alloc: Global, text: &mut String, number: u64, complaint: &Complaint<'_>) -> Result<(), AllocError> {
    push_line_number(text, number)?;
    push_complaint(alloc, text, complaint)?;
    text.push_str("\n")
}
