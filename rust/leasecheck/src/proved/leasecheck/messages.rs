// Made by tools/plain_rust from crates/leasecheck/src/messages.rt. Changes belong there.

use std::prelude::String;

use crate::proved::lease_texts::{Said, push_fact, push_line};
use smblease::proved::lease_facts::Fact;
use smblease::proved::lease_state::{ClientNo, Reply};
use std::alloc::AllocError;

// The line of the first of these messages; those after it are given.
fn push_message<'a>(text: &mut String, begin: &str, client: ClientNo, messages: &'a [Reply]) -> Result<&'a [Reply], AllocError> {
    if messages.is_empty() {
        return Ok(messages);
    }
    push_line(text, begin, &[Said::Client(client), Said::Reply(&messages[0])])?;
    Ok(&messages[1..])
}

// The line of the message that a fact speaks of, the first of these; those after it are given.
fn push_message_of<'a>(text: &mut String, fact: &Fact, messages: &'a [Reply]) -> Result<&'a [Reply], AllocError> {
    match fact {
        Fact::Sent(client) => push_message(text, "# sent", *client, messages),
        Fact::Took(client) => push_message(text, "# took", *client, messages),
        _ => Ok(messages),
    }
}

/// The lines of a fact: before its own, where it speaks of a message, a comment line with what is in the first of these.
/// Those after it are given.
pub fn push_lines_of<'a>(text: &mut String, fact: &Fact, messages: &'a [Reply]) -> Result<&'a [Reply], AllocError> {
    let behind = push_message_of(text, fact, messages)?;
    push_fact(text, fact)?;
    Ok(behind)
}
