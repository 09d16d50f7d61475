// Made by tools/plain_rust from crates/lease_world/src/running.rt. Changes belong there.

use std::prelude::Vec;

use crate::proved::lease_facts::{Event, Fact, Passage, Setup};
use crate::proved::lease_state::{Memory, Reply, Rules};
use crate::proved::lease_world::obstacle::{Idle, Obstacle};
use crate::proved::lease_world::setup::{RunFault, is_allowed};
use crate::proved::lease_world::world::World;
use crate::proved::lease_world::world::messages::Messages;
use std::alloc::Global;

/// What a run keeps in addition to its record. Messages have the bytes that were read, and passages those that were written.
#[derive(Clone, Copy, Debug, PartialEq, Eq)]
pub struct Kept {
    pub messages: bool,
    pub idle: bool,
    pub passages: bool,
}

impl Kept {
    /// The record alone.
    pub fn nothing() -> Kept {
        Kept { messages: false, idle: false, passages: false }
    }

    /// All of it.
    pub fn all() -> Kept {
        Kept { messages: true, idle: true, passages: true }
    }
}

/// What a run tells. What isn't kept of it is empty.
#[derive(Debug)]
pub struct Told {
    /// Its record.
    pub facts: Vec<Fact>,
    /// The messages that the record speaks of: one for each `Sent` and each `Took`, in their order. A break is there as it was
    /// sent, and so are the contexts of a created file.
    pub messages: Vec<Reply>,
    /// The events that did nothing, in order.
    pub idle: Vec<Idle>,
    /// What became of the requests that clients sent, in order.
    pub passages: Vec<Passage>,
}

// The most events of a run.
const EVENTS_LIMIT: usize = 10_000;

/// The record of a run: what happens in a world of this setup by these events, in order. An event that doesn't apply
/// does nothing.
///
/// The record is safe, whatever the events. Among clients whose connection the server has, that
/// never strayed (only their machines made the requests sent in their name) and let no break timer
/// run out since they connected, none caches writes of a file that another caches, and a cached
/// read gives the file as it stood when the message that the client took last was sent, with its
/// unanswered writes. Of clients that never strayed, no write is settled as done that wasn't
/// accepted, and no buffered write is accepted after another client opened or changed the file. So
/// `judge` calls it safe.
///
/// # Errors
///
/// `BadSetup` exactly where the setup breaks its limits, else `TooMany` exactly where there are too many events, else
/// `Memory` where there is none left.
pub fn run(alloc: Global, setup: &Setup, events: &[Event]) -> Result<Vec<Fact>, RunFault> {
    match run_under(alloc, Rules::profile(), Kept::nothing(), setup, events) {
        Ok(told) => Ok(told.facts),
        Err(fault) => Err(fault),
    }
}

/// A run with a server of these rules: its record, as `run` gives it, whose server has the profile's, and of the
/// rest what is to be kept: the messages that the record speaks of, the events that did nothing, each with what stood in its
/// way, and what became of requests. The record is safe under all rules. The events that did nothing are those that leave the
/// world as it was; commands that are refused are among them.
///
/// # Errors
///
/// Those of `run`, in the same cases.
pub fn run_under(alloc: Global, rules: Rules, kept: Kept, setup: &Setup, events: &[Event]) -> Result<Told, RunFault> {
    if !is_allowed(setup) {
        return Err(RunFault::BadSetup);
    }
    if are_too_many(events) {
        return Err(RunFault::TooMany);
    }
    let (mut idle, mut passages) = (Vec::new(alloc), Vec::new(alloc));
    match play(alloc, rules, kept, setup, events, &mut idle, &mut passages) {
        Ok(world) => {
            let (facts, messages) = world.into_parts();
            Ok(Told { facts, messages: messages.into_list(alloc), idle, passages })
        }
        Err(Memory) => Err(RunFault::Memory),
    }
}

fn are_too_many(events: &[Event]) -> bool {
    events.len() > EVENTS_LIMIT
}

// Messages that are kept, or not, before a run.
fn messages_before(alloc: Global, are_kept: bool) -> Messages {
    if are_kept { Messages::new(alloc) } else { Messages::unkept() }
}

// The world after a run whose setup has few files. The events that did nothing and what became of requests come into lists that
// are empty, where they are to be kept.
fn play(
    alloc: Global,
    rules: Rules,
    kept: Kept,
    setup: &Setup,
    events: &[Event],
    idle: &mut Vec<Idle>,
    passages: &mut Vec<Passage>,
) -> Result<World, Memory> {
    let messages = messages_before(alloc, kept.messages);
    let mut world = World::new(alloc, rules, setup, messages)?;
    for (place, event) in events.iter().enumerate() {
        let facts = world.count();
        let waiting = world.waiting(event.client());
        let obstacle = world.happen_explained(event)?;
        note_idle(idle, kept.idle, place, facts, obstacle)?;
        note_passages(passages, kept.passages, &world, event, facts, waiting)?;
    }
    Ok(world)
}

// Adds the event in this place, where something stood in its way, if such events are kept.
fn note_idle(idle: &mut Vec<Idle>, is_kept: bool, event: usize, facts: usize, obstacle: Option<Obstacle>) -> Result<(), Memory> {
    if !is_kept {
        return Ok(());
    }
    if let Some(obstacle) = obstacle {
        idle.push(Idle { event, facts, obstacle })?;
    }
    Ok(())
}

// Adds what became of requests by an event that happened, as `World::note_passages` does, if that is kept.
fn note_passages(
    passages: &mut Vec<Passage>,
    is_kept: bool,
    world: &World,
    event: &Event,
    facts: usize,
    waiting: usize,
) -> Result<(), Memory> {
    if is_kept {
        world.note_passages(passages, event, facts, waiting)?;
    }
    Ok(())
}
