// Made by tools/plain_rust from crates/leasecheck/src/wire/render.rt. Changes belong there.

use std::prelude::String;

use crate::proved::lease_texts::state_letters;
use crate::proved::leasecheck::failure::Failure;
use crate::proved::leasecheck::tasks::Kind;
use crate::proved::leasecheck::wire::acknowledge::push_rest;
use crate::proved::leasecheck::wire::words::{push_context, push_values};
use smblease::proved::lease_state::{LeaseKey, LeaseState};
use smblease::proved::lease_wire::{
    Acknowledgment, BreakResponse, ContextValues, Contexts, Direction, HEADER_SIZE, Notification, begins_message, contexts,
    contexts_of_create, first_message,
};
use std::alloc::{AllocError, Global};

// What `leasecheck show ask` and `show reply` print: the create contexts of a request or a response,
// and what they ask for or grant. Where memory runs out the rest is still read, since a fault of the
// bytes comes first.
fn render_create(alloc: Global, direction: Direction, contexts: Contexts<'_>) -> Result<String, Failure> {
    let mut text = String::new(alloc);
    let mut values = ContextValues::nothing();
    let mut room = Ok(());
    for item in contexts {
        let context = item?;
        values = values.with_context(direction, &context)?;
        if room.is_ok() {
            room = push_context(alloc, &mut text, &context);
        }
    }
    room?;
    push_values(&mut text, &values)?;
    Ok(text)
}

fn break_text(alloc: Global, notification: &Notification) -> Result<String, AllocError> {
    let mut buffer = [0u8; 36];
    let key = notification.key.text(&mut buffer);
    let current = state_letters(notification.current);
    let new = state_letters(notification.new);
    let due = if notification.ack_required { " ack" } else { " no ack" };
    let mut text = String::new(alloc);
    writeln!(text, "break {key} {current} to {new}{due}")?;
    Ok(text)
}

/// What `leasecheck show break` prints: a break notification, and how many bytes follow.
fn render_break(alloc: Global, bytes: &[u8]) -> Result<String, Failure> {
    let (notification, rest) = Notification::decode(bytes)?;
    let mut text = break_text(alloc, &notification)?;
    push_rest(&mut text, rest.len())?;
    Ok(text)
}

// A key with its state after a word, and how many bytes follow.
fn key_and_state_text(alloc: Global, word: &str, key: LeaseKey, state: LeaseState, rest: usize) -> Result<String, AllocError> {
    let mut buffer = [0u8; 36];
    let digits = key.text(&mut buffer);
    let letters = state_letters(state);
    let mut text = String::new(alloc);
    writeln!(text, "{word} {digits} {letters}")?;
    push_rest(&mut text, rest)?;
    Ok(text)
}

/// What `leasecheck show ack` prints: a break acknowledgment, and how many bytes follow.
fn render_acknowledgment(alloc: Global, bytes: &[u8]) -> Result<String, Failure> {
    let (message, rest) = Acknowledgment::decode(bytes)?;
    Ok(key_and_state_text(alloc, "ack", message.key, message.state, rest.len())?)
}

/// What `leasecheck show response` prints: a break response, and how many bytes follow.
fn render_response(alloc: Global, bytes: &[u8]) -> Result<String, Failure> {
    let (message, rest) = BreakResponse::decode(bytes)?;
    Ok(key_and_state_text(alloc, "response", message.key, message.state, rest.len())?)
}

// What is shown of bytes without the SMB2 header.
fn render_bare(alloc: Global, kind: Kind, bytes: &[u8]) -> Result<String, Failure> {
    match kind {
        Kind::Ask => render_create(alloc, Direction::Request, contexts(bytes)),
        Kind::Reply => render_create(alloc, Direction::Reply, contexts(bytes)),
        Kind::Break => render_break(alloc, bytes),
        Kind::Ack => render_acknowledgment(alloc, bytes),
        Kind::Response => render_response(alloc, bytes),
    }
}

// What is shown of the contexts of a whole CREATE request or response.
fn render_in_message(alloc: Global, direction: Direction, message: &[u8]) -> Result<String, Failure> {
    let contexts = contexts_of_create(direction, message)?;
    render_create(alloc, direction, contexts)
}

// The same, with the place of a message's fault counted from the header in front of it.
fn behind_header(shown: Result<String, Failure>) -> Result<String, Failure> {
    match shown {
        Err(Failure::Wire(fault)) => Err(Failure::Wire(fault.at(HEADER_SIZE))),
        other => other,
    }
}

fn body_of(message: &[u8]) -> &[u8] {
    message.split_at(HEADER_SIZE).1
}

// What is shown of a whole message.
fn render_message(alloc: Global, kind: Kind, message: &[u8]) -> Result<String, Failure> {
    let body = body_of(message);
    match kind {
        Kind::Ask => render_in_message(alloc, Direction::Request, message),
        Kind::Reply => render_in_message(alloc, Direction::Reply, message),
        Kind::Break => behind_header(render_break(alloc, body)),
        Kind::Ack => behind_header(render_acknowledgment(alloc, body)),
        Kind::Response => behind_header(render_response(alloc, body)),
    }
}

/// What `leasecheck show` prints for bytes of a kind. Bytes that begin with the ProtocolId of SMB2 are whole messages, of which
/// the first is shown; others are contexts, or a break message, without the header.
///
/// # Errors
///
/// The fault of the bytes, with its place from their start, and where they have none `Memory`, where there is none left.
pub fn render(alloc: Global, kind: Kind, bytes: &[u8]) -> Result<String, Failure> {
    if begins_message(bytes) {
        let message = first_message(bytes)?;
        render_message(alloc, kind, message)
    } else {
        render_bare(alloc, kind, bytes)
    }
}
