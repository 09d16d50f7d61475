// Made by tools/plain_rust from crates/leasecheck/src/idle.rt. Changes belong there.

use std::prelude::{String, Vec};

use crate::proved::lease_texts::{LineFault, Part, first_line, is_passed_over, read_part};
use smblease::proved::lease_client::Refusal;
use smblease::proved::lease_state::Memory;
use smblease::proved::lease_world::{Idle, Obstacle};
use std::alloc::{AllocError, Global};

// ---- the lines of a schedule

// Whether a line of a schedule tells an event.
fn tells_event(alloc: Global, line: &[u8]) -> Result<bool, Memory> {
    if is_passed_over(line) {
        return Ok(false);
    }
    match read_part(alloc, line) {
        Ok(Part::Happens(_)) => Ok(true),
        Ok(Part::File(_) | Part::Client(_)) | Err(LineFault::Refused) => Ok(false),
        Err(LineFault::Memory) => Err(Memory),
    }
}

// Adds the number of a line, where it tells an event.
fn note_line(alloc: Global, lines: &mut Vec<u64>, line: &[u8], number: u64) -> Result<(), Memory> {
    if tells_event(alloc, line)? {
        lines.push(number)?;
    }
    Ok(())
}

/// The numbers of the lines of a schedule in which events stand, in order. Lines count from 1.
///
/// # Errors
///
/// `Memory` where there is none left.
pub fn event_lines(alloc: Global, text: &[u8]) -> Result<Vec<u64>, Memory> {
    let mut lines = Vec::new(alloc);
    let mut rest = text;
    let mut number = 0u64;
    while !rest.is_empty() {
        let (line, behind) = first_line(rest);
        number += 1;
        note_line(alloc, &mut lines, line, number)?;
        rest = behind;
    }
    Ok(lines)
}

// ---- words

fn refusal_words(refusal: Refusal) -> &'static str {
    match refusal {
        Refusal::NotOpen => "notopen: the client has no such file, or no handle on it",
        Refusal::Busy => "busy: an answer of the server has to come first",
        Refusal::Differs => "differs: it asks for another access or share than the open has",
        Refusal::Offline => "offline: the client isn't connected, or its open isn't connected again yet",
        Refusal::TooLong => "toolong: the write ends past the limit of a file",
        Refusal::Denied => "denied: the access of the open doesn't allow it",
        Refusal::UsedUp => "usedup: no number is left for it",
    }
}

// Words about a number.
fn push_about(text: &mut String, before: &str, number: u8, behind: &str) -> Result<(), AllocError> {
    write!(text, "did nothing: {before}{number}{behind}")
}

// Words about a client and a file.
fn push_about_both(text: &mut String, before: &str, client: u8, between: &str, file: u8, behind: &str) -> Result<(), AllocError> {
    write!(text, "did nothing: {before}{client}{between}{file}{behind}")
}

fn push_refused(text: &mut String, refusal: Refusal) -> Result<(), AllocError> {
    let words = refusal_words(refusal);
    write!(text, "was refused as {words}")
}

fn push_obstacle(text: &mut String, obstacle: Obstacle) -> Result<(), AllocError> {
    match obstacle {
        Obstacle::NoClient(client) => push_about(text, "there is no client ", client.0, ""),
        Obstacle::Refused(refusal) => push_refused(text, refusal),
        Obstacle::NothingUnsent(client, file) => {
            let words = " has no unsent write of file ";
            push_about_both(text, "client ", client.0, words, file.0, "")
        }
        Obstacle::NoRequest(client) => push_about(text, "no request of client ", client.0, " is on its way"),
        Obstacle::NoReply(client) => push_about(text, "no message to client ", client.0, " is on its way"),
        Obstacle::NotConnected(client) => push_about(text, "client ", client.0, " isn't connected"),
        Obstacle::Connected(client) => push_about(text, "client ", client.0, " is connected"),
        Obstacle::Unnoticed(client) => {
            let words = " hasn't noticed that its connection was lost";
            push_about(text, "client ", client.0, words)
        }
        Obstacle::NoFile(file) => push_about(text, "there is no file ", file.0, ""),
        Obstacle::NoBreak(client, file) => {
            let words = "no break of the lease of client ";
            push_about_both(text, words, client.0, " of file ", file.0, " waits")
        }
        Obstacle::NoOpen(client, file) => {
            let words = " is kept without a connection";
            push_about_both(text, "no open of client ", client.0, " of file ", file.0, words)
        }
    }
}

// The number of the line that tells an event, by those of all events.
fn number_of(lines: &[u64], event: usize) -> u64 {
    lines.get(event).copied().unwrap_or(0)
}

// The line of an event that did nothing, by the numbers of the lines that tell events.
fn push_idle(text: &mut String, lines: &[u64], one: Idle) -> Result<(), AllocError> {
    let number = number_of(lines, one.event);
    write!(text, "# line {number} ")?;
    push_obstacle(text, one.obstacle)?;
    text.push_str("\n")
}

// ---- in a record

/// The lines of the events that did nothing before a fact, before which so many facts are; the events after it are given.
pub fn push_idle_before<'a>(
    text: &mut String,
    lines: &[u64],
    count: usize,
    events: &'a [Idle],
) -> Result<&'a [Idle], AllocError> {
    let mut left = events;
    while !left.is_empty() {
        if count < left[0].facts {
            return Ok(left);
        }
        push_idle(text, lines, left[0])?;
        left = &left[1..];
    }
    Ok(left)
}

/// The lines of events that did nothing.
pub fn push_all_idle(text: &mut String, lines: &[u64], events: &[Idle]) -> Result<(), AllocError> {
    for one in events {
        push_idle(text, lines, *one)?;
    }
    Ok(())
}
