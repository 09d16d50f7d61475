//! Runs of a server and clients by lists of events, and verdicts on records.

use crate::OutOfMemory;
use crate::proved::lease_facts as facts;
use crate::proved::lease_state::{Content, Reply, Rules};
use crate::proved::lease_world as proved;
use alloc::vec::Vec;
use std::alloc::Global;
use std::prelude::Vec as Fallible;

pub use crate::proved::lease_facts::{Event, Fact, Passage, Rule, Verdict};
pub use crate::proved::lease_world::{Idle, Kept, Obstacle, RunFault};

/// What a run begins with.
#[derive(Debug)]
pub struct Setup {
    inner: facts::Setup,
}

impl Setup {
    /// The files, 8 at most, and the ClientGuids of the clients, 16 at most and no two of them equal; both are numbered from 1.
    pub fn new(files: Vec<Content>, clients: Vec<[u8; 16]>) -> Setup {
        Setup { inner: facts::Setup { files: Fallible::from(files), clients: Fallible::from(clients) } }
    }
}

/// What a run tells. What isn't kept of it is empty.
#[derive(Debug)]
pub struct Told {
    /// Its record.
    pub facts: Vec<Fact>,
    /// The messages that the record speaks of: one for each that is sent and each that is taken, in their order.
    pub messages: Vec<Reply>,
    /// The events that did nothing, in order, each with what stood in its way.
    pub idle: Vec<Idle>,
    /// What became of the requests that clients sent, in order.
    pub passages: Vec<Passage>,
}

impl From<proved::Told> for Told {
    fn from(told: proved::Told) -> Told {
        Told {
            facts: told.facts.into_inner(),
            messages: told.messages.into_inner(),
            idle: told.idle.into_inner(),
            passages: told.passages.into_inner(),
        }
    }
}

/// The record of a run with a server of the profile's rules. It is proved to be safe, whatever the events.
///
/// # Errors
///
/// `BadSetup` where the setup breaks its limits, else `TooMany` where there are more than 10,000 events, else `Memory` where there is
/// none left.
pub fn run(setup: &Setup, events: &[Event]) -> Result<Vec<Fact>, RunFault> {
    Ok(proved::run(Global, &setup.inner, events)?.into_inner())
}

/// A run with a server of these rules: its record, and of the rest what is to be kept.
///
/// # Errors
///
/// Those of [`run`].
pub fn run_under(rules: Rules, kept: Kept, setup: &Setup, events: &[Event]) -> Result<Told, RunFault> {
    Ok(Told::from(proved::run_under(Global, rules, kept, &setup.inner, events)?))
}

/// The verdict on a record: `Safe` exactly where it is safe, and else where it first goes wrong.
///
/// # Errors
///
/// Where there is no memory for what the judge keeps.
pub fn judge<'a>(facts: impl IntoIterator<Item = &'a Fact>) -> Result<Verdict, OutOfMemory> {
    proved::judge_each(Global, facts.into_iter())
}

/// A judge who takes a record fact by fact.
#[derive(Debug)]
pub struct Judge {
    inner: proved::Judge,
}

impl Default for Judge {
    fn default() -> Judge {
        Judge::new()
    }
}

impl Judge {
    /// A judge who has seen nothing. Allocates nothing.
    pub fn new() -> Judge {
        Judge { inner: proved::Judge::new(Global) }
    }

    /// Takes the next fact.
    ///
    /// # Errors
    ///
    /// Where there is no memory for what is kept of it.
    pub fn add(&mut self, fact: &Fact) -> Result<(), OutOfMemory> {
        self.inner.add(fact)
    }

    /// The verdict on the facts so far.
    pub fn verdict(&self) -> Verdict {
        self.inner.verdict()
    }
}
