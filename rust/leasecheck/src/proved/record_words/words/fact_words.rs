// Made by tools/plain_rust from crates/record_words/src/words/fact_words.rt. Changes belong there.

use std::prelude::String;

use crate::proved::lease_texts::{digits_of, outcome_word, state_letters};
use smblease::proved::lease_facts::{Fact, FactKind};
use smblease::proved::lease_state::Patch;
use std::alloc::{AllocError, Global};

/// Adds words as they stand.
pub fn push_words(text: &mut String, words: &str) -> Result<(), AllocError> {
    text.push_str(words)
}

// The first 64 bytes.
fn first_shown(bytes: &[u8]) -> &[u8] {
    bytes.split_at(64).0
}

/// Adds bytes as digits: at most 64 of them, and then how many there are.
pub fn push_bytes(alloc: Global, text: &mut String, bytes: &[u8]) -> Result<(), AllocError> {
    let count = bytes.len();
    if count <= 64 {
        let digits = digits_of(alloc, bytes)?;
        return text.push_str(digits.as_str());
    }
    let digits = std::ports::hex::encode(alloc, first_shown(bytes))?;
    write!(text, "{digits}... ({count} bytes)")
}

fn push_patch(alloc: Global, text: &mut String, patch: &Patch) -> Result<(), AllocError> {
    push_bytes(alloc, text, patch.bytes.as_slice())?;
    let offset = patch.offset;
    write!(text, " at {offset}")
}

fn way_words(buffered: bool) -> &'static str {
    if buffered { ", buffered" } else { ", sent on" }
}

fn push_changed(text: &mut String, file: u8, client: u8, number: u64) -> Result<(), AllocError> {
    write!(text, "file {file} is changed by write {number} of client {client}: ")
}

fn push_wrote(text: &mut String, client: u8, file: u8, number: u64) -> Result<(), AllocError> {
    write!(text, "client {client} is given write {number} of file {file}: ")
}

fn push_started(text: &mut String, file: u8) -> Result<(), AllocError> {
    write!(text, "file {file} is started with ")
}

fn push_read(text: &mut String, client: u8, file: u8) -> Result<(), AllocError> {
    write!(text, "client {client} reads from its cache of file {file}: ")
}

/// Adds what the client does that a fact is about, where that is all that the fact says.
pub fn push_deed(text: &mut String, fact: &Fact) -> Result<(), AllocError> {
    match fact.kind() {
        FactKind::Client(told) => text.push_str(told.deed()),
        _ => Ok(()),
    }
}

// The same behind the client's name.
fn push_named_deed(text: &mut String, fact: &Fact) -> Result<(), AllocError> {
    let Some(client) = fact.client() else {
        return Ok(());
    };
    let client = client.0;
    write!(text, "client {client} ")?;
    push_deed(text, fact)
}

/// Adds a fact in words.
pub fn push_fact_words(alloc: Global, text: &mut String, fact: &Fact) -> Result<(), AllocError> {
    match fact {
        Fact::Start(file, bytes) => {
            push_started(text, file.0)?;
            push_bytes(alloc, text, bytes.as_slice())
        }
        Fact::Expired(client, file) => {
            let (client, file) = (client.0, file.0);
            write!(text, "client {client} lets the timer of a break of file {file} run out")
        }
        Fact::Sent(client) => {
            let client = client.0;
            write!(text, "a message is sent to client {client}")
        }
        Fact::Opened(file, client) => {
            let (file, client) = (file.0, client.0);
            write!(text, "file {file} is opened for client {client}")
        }
        Fact::Changed(file, client, number, patch) => {
            push_changed(text, file.0, client.0, *number)?;
            push_patch(alloc, text, patch)
        }
        Fact::Wrote(client, file, number, patch, buffered) => {
            push_wrote(text, client.0, file.0, *number)?;
            push_patch(alloc, text, patch)?;
            push_words(text, way_words(*buffered))
        }
        Fact::Settled(client, number, outcome) => {
            let (client, outcome) = (client.0, outcome_word(*outcome));
            write!(text, "client {client} learns that its write {number} is {outcome}")
        }
        Fact::Believes(client, file, state) => {
            let (client, file, letters) = (client.0, file.0, state_letters(*state));
            write!(text, "client {client} believes {letters} of file {file}")
        }
        Fact::CachedRead(client, file, bytes) => {
            push_read(text, client.0, file.0)?;
            push_bytes(alloc, text, bytes.as_slice())
        }
        _ => push_named_deed(text, fact),
    }
}
