// Made by tools/plain_rust from crates/lease_wire_v2/src/create/writing.rt. Changes belong there.

use std::prelude::Vec;

use crate::proved::lease_state::Memory;
use crate::proved::lease_wire::Direction;
use crate::proved::lease_wire_v2::create::meaning::AnyDurable;
use crate::proved::lease_wire_v2::create::reading::Values;
use crate::proved::lease_wire_v2::create::text::push_text;
use crate::proved::lease_wire_v2::create::{CreateAnswerV2, CreateAskV2, DurableAnswer, DurableAsk, LeaseAnswer, LeaseAsk};
use arrayvec::ArrayVec;

// Appends all of the canonical text, or nothing.
// docs/DECISIONS.md: "Canonical texts are made in an array".
fn append(out: &mut Vec<u8>, direction: Direction, values: &Values) -> Result<(), Memory> {
    let mut text = ArrayVec::new();
    push_text(&mut text, direction, values);
    match out.extend_from_slice(text.as_slice()) {
        Ok(()) => Ok(()),
        Err(_) => Err(Memory),
    }
}

// Writes all of the canonical text to the front of the room, or nothing; gives how long the text
// is.
fn fill(room: &mut [u8], direction: Direction, values: &Values) -> usize {
    let mut text = ArrayVec::new();
    push_text(&mut text, direction, values);
    if text.len() <= room.len() {
        room[..text.len()].copy_from_slice(text.as_slice());
    }
    text.len()
}

fn any_lease(lease: Option<LeaseAsk>) -> Option<LeaseAnswer> {
    match lease {
        Some(lease) => Some(LeaseAnswer { key: lease.key, state: lease.state, breaking: false, second: lease.second }),
        None => None,
    }
}

fn any_asked(durable: Option<DurableAsk>) -> Option<AnyDurable> {
    match durable {
        Some(DurableAsk::First) => Some(AnyDurable::First),
        Some(DurableAsk::Second(ask)) => Some(AnyDurable::Asked(ask)),
        None => None,
    }
}

fn any_granted(durable: Option<DurableAnswer>) -> Option<AnyDurable> {
    match durable {
        Some(DurableAnswer::First) => Some(AnyDurable::First),
        Some(DurableAnswer::Second(grant)) => Some(AnyDurable::Granted(grant)),
        None => None,
    }
}

fn values_asked(ask: &CreateAskV2) -> Values {
    Values { lease: any_lease(ask.lease), durable: any_asked(ask.durable), reconnect: ask.reconnect }
}

fn values_granted(answer: &CreateAnswerV2) -> Values {
    Values { lease: answer.lease, durable: any_granted(answer.durable), reconnect: None }
}

/// Appends the create contexts of a request (MS-SMB2 2.2.13.2) in their canonical text, each in the version that it has: `RqLs`,
/// then `DHnQ` or `DH2Q`, then `DHnC` or `DH2C`, those that are asked for. A context that another one follows is padded with
/// zeros to a multiple of 8. The text takes `CONTEXTS_LIMIT` bytes at most.
///
/// # Errors
///
/// `Memory` where there is none, and the vector is then as it was.
pub fn write_create_ask_v2(ask: &CreateAskV2, out: &mut Vec<u8>) -> Result<(), Memory> {
    append(out, Direction::Request, &values_asked(ask))
}

/// Appends the create contexts of a response (MS-SMB2 2.2.14.2) in their canonical text, as [`write_create_ask_v2`] those of a
/// request: `RqLs`, then `DHnQ` or `DH2Q`, those that are granted.
///
/// # Errors
///
/// `Memory` where there is none, and the vector is then as it was.
pub fn write_create_reply_v2(answer: &CreateAnswerV2, out: &mut Vec<u8>) -> Result<(), Memory> {
    append(out, Direction::Reply, &values_granted(answer))
}

/// Writes what [`write_create_ask_v2`] appends to the front of `room`, and allocates nothing. Returns the length of the text, in
/// bytes, `CONTEXTS_LIMIT` at most; where `room` is shorter than the text, nothing is written.
pub fn fill_create_ask_v2(ask: &CreateAskV2, room: &mut [u8]) -> usize {
    fill(room, Direction::Request, &values_asked(ask))
}

/// Writes what [`write_create_reply_v2`] appends to the front of `room`, and allocates nothing. Returns the length of the text,
/// in bytes, `CONTEXTS_LIMIT` at most; where `room` is shorter than the text, nothing is written.
pub fn fill_create_reply_v2(answer: &CreateAnswerV2, room: &mut [u8]) -> usize {
    fill(room, Direction::Reply, &values_granted(answer))
}
