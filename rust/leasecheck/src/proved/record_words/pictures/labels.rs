// Made by tools/plain_rust from crates/record_words/src/pictures/labels.rt. Changes belong there.

use crate::proved::lease_texts::{outcome_word, state_letters};
use crate::proved::record_words::words::push_deed;
use smblease::proved::lease_facts::Fact;
use smblease::proved::lease_state::{Bytes, LeaseState, Reply, Request};
use smblease::proved::lease_wire::{Acknowledgment, Notification, read_create, read_create_reply};
use std::alloc::{AllocError, Global};
use std::prelude::{String, format};

fn push_count(text: &mut String, bytes: usize) -> Result<(), AllocError> {
    if bytes == 1 { text.push_str("1 byte") } else { write!(text, "{bytes} bytes") }
}

fn way_words(buffered: bool) -> &'static str {
    if buffered { "buffered" } else { "sent on" }
}

// ---- messages

fn push_lease(text: &mut String, state: LeaseState) -> Result<(), AllocError> {
    let letters = state_letters(state);
    write!(text, ", lease {letters}")
}

fn push_durable(text: &mut String, durable: bool) -> Result<(), AllocError> {
    if durable {
        text.push_str(", durable")?;
    }
    Ok(())
}

// Adds what is granted beside an open.
fn push_granted(text: &mut String, contexts: &Bytes) -> Result<(), AllocError> {
    let Ok(answer) = read_create_reply(contexts.as_slice()) else {
        return Ok(());
    };
    if let Some((_, state, _)) = answer.lease {
        push_lease(text, state)?;
    }
    push_durable(text, answer.durable)
}

fn break_label(alloc: Global, message: &[u8]) -> Result<String, AllocError> {
    let Ok((notification, _)) = Notification::decode(message) else {
        return String::from_str(alloc, "break");
    };
    let (current, new) = (state_letters(notification.current), state_letters(notification.new));
    let text = format!(in alloc; "break {current} to {new}")?;
    Ok(text)
}

// Adds what a message says that is no break.
fn push_answer(text: &mut String, message: &Reply) -> Result<(), AllocError> {
    match message {
        Reply::Created { file, contexts, .. } => {
            let file = file.0;
            write!(text, "file {file} opened")?;
            push_granted(text, contexts)
        }
        Reply::CreateFailed { file, .. } => {
            let file = file.0;
            write!(text, "file {file} not opened")
        }
        Reply::ReadDone { bytes, .. } => {
            push_count(text, bytes.as_slice().len())?;
            text.push_str(" read")
        }
        Reply::ReadFailed { .. } => text.push_str("not read"),
        Reply::WriteDone { number, .. } => write!(text, "write {number} done"),
        Reply::WriteFailed { number, .. } => write!(text, "write {number} failed"),
        Reply::Closed { .. } => text.push_str("closed"),
        Reply::CloseFailed { .. } => text.push_str("not closed"),
        Reply::Break(_) => Ok(()),
        Reply::AckDone(_) => text.push_str("acknowledgment accepted"),
        Reply::AckFailed { .. } => text.push_str("acknowledgment refused"),
    }
}

// What a message says, in a few words.
fn message_label(alloc: Global, message: &Reply) -> Result<String, AllocError> {
    if let Reply::Break(bytes) = message {
        return break_label(alloc, bytes.as_slice());
    }
    let mut text = String::new(alloc);
    push_answer(&mut text, message)?;
    Ok(text)
}

// ---- facts

fn push_expired(text: &mut String, client: u8, file: u8) -> Result<(), AllocError> {
    write!(text, "break of client {client} timed out, file {file}")
}

fn push_opened(text: &mut String, file: u8, client: u8) -> Result<(), AllocError> {
    write!(text, "opens file {file} for client {client}")
}

// What a fact says that speaks of no message, in a few words.
fn push_fact(text: &mut String, fact: &Fact) -> Result<(), AllocError> {
    match fact {
        Fact::Start(file, bytes) => {
            let file = file.0;
            write!(text, "file {file}: ")?;
            push_count(text, bytes.as_slice().len())
        }
        Fact::Expired(client, file) => push_expired(text, client.0, file.0),
        Fact::Opened(file, client) => push_opened(text, file.0, client.0),
        Fact::Changed(file, client, number, _) => {
            let (file, client) = (file.0, client.0);
            write!(text, "file {file}: write {number} of client {client}")
        }
        Fact::Wrote(_, file, number, _, buffered) => {
            let (file, way) = (file.0, way_words(*buffered));
            write!(text, "write {number} of file {file}, {way}")
        }
        Fact::Settled(_, number, outcome) => {
            let outcome = outcome_word(*outcome);
            write!(text, "write {number} {outcome}")
        }
        Fact::Believes(_, file, state) => {
            let (file, letters) = (file.0, state_letters(*state));
            write!(text, "believes {letters} of file {file}")
        }
        Fact::CachedRead(_, file, _) => {
            let file = file.0;
            write!(text, "cached read of file {file}")
        }
        _ => push_deed(text, fact),
    }
}

/// What a fact says, in a few words; `message` is the one that it speaks of, where that is known.
pub fn label_of(alloc: Global, fact: &Fact, message: Option<&Reply>) -> Result<String, AllocError> {
    match (fact, message) {
        (Fact::Sent(client), Some(message)) => {
            let (client, said) = (client.0, message_label(alloc, message)?);
            let mut text = format!(in alloc; "to client {client}: ")?;
            text.push_str(said.as_str())?;
            Ok(text)
        }
        (Fact::Sent(client), None) => {
            let client = client.0;
            let text = format!(in alloc; "to client {client}: message")?;
            Ok(text)
        }
        (Fact::Took(_), Some(message)) => message_label(alloc, message),
        _ => {
            let mut text = String::new(alloc);
            push_fact(&mut text, fact)?;
            Ok(text)
        }
    }
}

// ---- requests

// Adds what is asked beside an open. One that is connected again keeps its lease, whatever state is asked for.
fn push_wanted(text: &mut String, contexts: &Bytes) -> Result<(), AllocError> {
    let Ok(ask) = read_create(contexts.as_slice()) else {
        return Ok(());
    };
    if ask.reconnect.is_some() {
        return text.push_str(" again");
    }
    if let Some((_, state)) = ask.lease {
        push_lease(text, state)?;
    }
    push_durable(text, ask.durable)
}

fn acknowledgment_label(alloc: Global, message: &[u8]) -> Result<String, AllocError> {
    let Ok((acknowledgment, _)) = Acknowledgment::decode(message) else {
        return String::from_str(alloc, "acknowledge");
    };
    let state = state_letters(acknowledgment.state);
    let text = format!(in alloc; "acknowledge {state}")?;
    Ok(text)
}

/// What a client asks, in a few words.
pub fn request_label(alloc: Global, request: &Request) -> Result<String, AllocError> {
    match request {
        Request::Create { file, contexts, .. } => {
            let file = file.0;
            let mut text = format!(in alloc; "open file {file}")?;
            push_wanted(&mut text, contexts)?;
            Ok(text)
        }
        Request::Read { .. } => String::from_str(alloc, "read"),
        Request::Write { number, patch, .. } => {
            let mut text = format!(in alloc; "write {number}, ")?;
            push_count(&mut text, patch.bytes.as_slice().len())?;
            Ok(text)
        }
        Request::Close { .. } => String::from_str(alloc, "close"),
        Request::Ack(message) => acknowledgment_label(alloc, message.as_slice()),
    }
}
