// Made by tools/plain_rust from crates/lease_wire/src/create/writing.rt. Changes belong there.

use std::prelude::Vec;

use crate::proved::lease_state::Memory;
use crate::proved::lease_wire::create::meaning::Lease;
use crate::proved::lease_wire::create::reading::ContextValues;
use crate::proved::lease_wire::create::text::push_text;
use crate::proved::lease_wire::create::{CreateAnswer, CreateAsk, Direction};
use arrayvec::ArrayVec;

// Appends all of the canonical text, or nothing.
// docs/DECISIONS.md: "Canonical texts are made in an array".
#[inline(always)]
fn append(out: &mut Vec<u8>, direction: Direction, values: &ContextValues) -> Result<(), Memory> {
    let mut text = ArrayVec::new();
    push_text(&mut text, direction, values);
    match out.extend_from_slice(text.as_slice()) {
        Ok(()) => Ok(()),
        Err(_) => Err(Memory),
    }
}

// Writes all of the canonical text to the front of the room, or nothing; gives how long the text
// is.
#[inline(always)]
fn fill(room: &mut [u8], direction: Direction, values: &ContextValues) -> usize {
    let mut text = ArrayVec::new();
    push_text(&mut text, direction, values);
    if text.len() <= room.len() {
        room[..text.len()].copy_from_slice(text.as_slice());
    }
    text.len()
}

fn lease_asked(ask: &CreateAsk) -> Option<Lease> {
    match ask.lease {
        Some((key, state)) => Some(Lease { key, state, breaking: false }),
        None => None,
    }
}

fn lease_granted(answer: &CreateAnswer) -> Option<Lease> {
    match answer.lease {
        Some((key, state, breaking)) => Some(Lease { key, state, breaking }),
        None => None,
    }
}

fn values_asked(ask: &CreateAsk) -> ContextValues {
    ContextValues { lease: lease_asked(ask), durable: ask.durable, reconnect: ask.reconnect }
}

fn values_granted(answer: &CreateAnswer) -> ContextValues {
    ContextValues { lease: lease_granted(answer), durable: answer.durable, reconnect: None }
}

/// Appends the create contexts of a request (MS-SMB2 2.2.13.2) in their canonical text: `RqLs`,
/// `DHnQ`, `DHnC`, those that are asked for, without padding between them.
///
/// # Errors
///
/// `Memory` where there is none, and the vector is then as it was.
pub fn write_create_ask(ask: &CreateAsk, out: &mut Vec<u8>) -> Result<(), Memory> {
    append(out, Direction::Request, &values_asked(ask))
}

/// Appends the create contexts of a response (MS-SMB2 2.2.14.2) in their canonical text: `RqLs`,
/// `DHnQ`, those that are granted.
///
/// # Errors
///
/// `Memory` where there is none, and the vector is then as it was.
pub fn write_create_reply(answer: &CreateAnswer, out: &mut Vec<u8>) -> Result<(), Memory> {
    append(out, Direction::Reply, &values_granted(answer))
}

/// Writes what [`write_create_ask`] appends to the front of `room`, and allocates nothing. Returns
/// the length of the text, 136 bytes at most; where `room` is shorter, nothing is written.
pub fn fill_create_ask(ask: &CreateAsk, room: &mut [u8]) -> usize {
    fill(room, Direction::Request, &values_asked(ask))
}

/// Writes what [`write_create_reply`] appends to the front of `room`, and allocates nothing.
/// Returns the length of the text, 88 bytes at most; where `room` is shorter, nothing is written.
pub fn fill_create_reply(answer: &CreateAnswer, room: &mut [u8]) -> usize {
    fill(room, Direction::Reply, &values_granted(answer))
}
