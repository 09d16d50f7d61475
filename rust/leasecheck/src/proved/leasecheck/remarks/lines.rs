// Made by tools/plain_rust from crates/leasecheck/src/remarks/lines.rt. Changes belong there.

use crate::proved::lease_texts::{Complaint, complaint_about, fact_table, first_line, part_table, push_complaint_line};
use std::alloc::{AllocError, Global};
use std::prelude::String;

fn complaint_line(alloc: Global, number: u64, complaint: &Complaint<'_>) -> Result<String, AllocError> {
    let mut text = String::new(alloc);
    push_complaint_line(alloc, &mut text, number, complaint)?;
    Ok(text)
}

/// What is said of a line of a record that is refused; nothing of one that isn't.
pub(crate) fn fact_remark(alloc: Global, number: u64, line: &[u8]) -> Result<Option<String>, AllocError> {
    match complaint_about(alloc, fact_table(), line) {
        Ok(Some(complaint)) => Ok(Some(complaint_line(alloc, number, &complaint)?)),
        Ok(None) => Ok(None),
        Err(_) => Err(AllocError),
    }
}

fn place_line(alloc: Global, number: u64) -> Result<String, AllocError> {
    let mut text = String::new(alloc);
    writeln!(text, "line {number}: files and clients stand before the first event")?;
    Ok(text)
}

/// What is said of a line of a capture that is refused.
pub(crate) fn capture_remark(alloc: Global, number: u64) -> Result<String, AllocError> {
    let mut text = String::new(alloc);
    writeln!(text, "line {number}: a frame with the addresses that its connection has, a gap or an end stands here")?;
    Ok(text)
}

/// What is said of a line of a schedule that is refused.
pub(crate) fn part_remark(alloc: Global, number: u64, line: &[u8]) -> Result<String, AllocError> {
    match complaint_about(alloc, part_table(), line) {
        Ok(Some(complaint)) => complaint_line(alloc, number, &complaint),
        Ok(None) => place_line(alloc, number),
        Err(_) => Err(AllocError),
    }
}

fn first_of(text: &[u8]) -> &[u8] {
    if text.is_empty() { &[] } else { first_line(text).0 }
}

/// The line of a number, from 1; no bytes where there is none.
pub(crate) fn line_at(text: &[u8], number: u64) -> &[u8] {
    let mut rest = text;
    for _passed in 1..number {
        if rest.is_empty() {
            return &[];
        }
        rest = first_line(rest).1;
    }
    first_of(rest)
}
