// Made by tools/plain_rust from crates/lease_world/src/world/delivering.rt. Changes belong there.

use std::prelude::Vec;

use crate::proved::lease_client::{Given, Note};
use crate::proved::lease_facts::Fact;
use crate::proved::lease_state::{ClientNo, Memory, Reply};
use crate::proved::lease_world::world::contents::Contents;
use crate::proved::lease_world::world::messages::Messages;
use crate::proved::lease_world::world::seat::Seat;
use crate::proved::share_server::Out;

/// Records what the server gave out, in order, sends its replies, and keeps them where messages are
/// kept.
///
/// # Errors
///
/// `Memory` where there is none left for the record, a queue or the messages.
pub fn deliver(
    seats: &mut Vec<Seat>,
    facts: &mut Vec<Fact>,
    messages: &mut Messages,
    contents: &mut Contents,
    outs: Vec<Out>,
) -> Result<(), Memory> {
    for out in outs {
        deliver_one(seats, facts, messages, contents, out)?;
    }
    Ok(())
}

fn deliver_one(
    seats: &mut Vec<Seat>,
    facts: &mut Vec<Fact>,
    messages: &mut Messages,
    contents: &mut Contents,
    out: Out,
) -> Result<(), Memory> {
    let fact = match out {
        Out::Sent(client, reply) => {
            messages.push(&reply)?;
            push_reply(seats, contents, client, reply)?;
            Fact::Sent(client)
        }
        Out::Opened(file, client) => Fact::Opened(file, client),
        Out::Changed(file, client, number, patch) => Fact::Changed(file, client, number, patch),
    };
    facts.push(fact)?;
    Ok(())
}

// A reply is on its way to the client, if there is one of this number.
fn push_reply(seats: &mut Vec<Seat>, contents: &mut Contents, client: ClientNo, reply: Reply) -> Result<(), Memory> {
    let number = usize::from(client.0);
    if number >= 1 && number <= seats.len() {
        let seat = &mut seats[number - 1];
        seat.push_reply(contents, reply)?;
    }
    Ok(())
}

/// Records what a client noted, in order.
///
/// # Errors
///
/// `Memory` where there is none left for the record.
pub fn tell_notes(facts: &mut Vec<Fact>, client: ClientNo, given: &mut Given) -> Result<(), Memory> {
    if given.notes.is_empty() {
        return Ok(());
    }
    for note in given.notes.drain(..) {
        facts.push(fact_noted(client, note))?;
    }
    Ok(())
}

fn fact_noted(client: ClientNo, note: Note) -> Fact {
    match note {
        Note::Settled(number, outcome) => Fact::Settled(client, number, outcome),
        Note::Wrote(file, number, patch, buffered) => Fact::Wrote(client, file, number, patch, buffered),
        Note::Believes(file, state) => Fact::Believes(client, file, state),
        Note::CachedRead(file, bytes) => Fact::CachedRead(client, file, bytes),
    }
}
