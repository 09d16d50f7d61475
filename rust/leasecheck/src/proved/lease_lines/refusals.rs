// Made by tools/plain_rust from crates/lease_lines/src/refusals.rt. Changes belong there.

use std::prelude::String;

use crate::proved::lease_texts::{LineFault, Table, complaint_about, push_complaint_line};
use smblease::proved::lease_state::Memory;
use std::alloc::{AllocError, Global};

/// What a line is answered.
#[derive(Debug)]
pub struct Answer {
    /// The lines of the answer; none where the line isn't answered.
    pub text: String,
    /// Why the line is refused, as a line; nothing where it isn't.
    pub reason: String,
}

fn fault_line(alloc: Global, number: u64) -> Result<String, AllocError> {
    let mut text = String::new(alloc);
    writeln!(text, "fault line {number}")?;
    Ok(text)
}

// What a line of this number lacks to be one of a table, as a line.
fn lack_line(alloc: Global, table: Table, number: u64, line: &[u8]) -> Result<String, LineFault> {
    let mut text = String::new(alloc);
    if let Some(complaint) = complaint_about(alloc, table, line)? {
        push_complaint_line(alloc, &mut text, number, &complaint)?;
    }
    Ok(text)
}

impl Answer {
    /// No answer. Allocates nothing.
    pub fn nothing(alloc: Global) -> Answer {
        let (text, reason) = (String::new(alloc), String::new(alloc));
        Answer { text, reason }
    }

    /// The answer to a line of this number that is none of a table.
    pub fn unread(alloc: Global, table: Table, number: u64, line: &[u8]) -> Result<Answer, Memory> {
        let text = fault_line(alloc, number)?;
        match lack_line(alloc, table, number, line) {
            Ok(reason) => Ok(Answer { text, reason }),
            Err(_) => Err(Memory),
        }
    }

    /// The answer to a line of this number that may not stand there, with what is said of where such lines stand.
    pub fn misplaced(alloc: Global, number: u64, place: &str) -> Result<Answer, Memory> {
        let text = fault_line(alloc, number)?;
        let mut reason = String::new(alloc);
        writeln!(reason, "line {number}: {place}")?;
        Ok(Answer { text, reason })
    }
}
