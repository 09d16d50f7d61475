// Made by tools/plain_rust from crates/capture_judge/src/values.rt. Changes belong there.

use std::prelude::Vec;
/// What a client caches of a file. Two clients clash where one caches writes and the other anything.
#[derive(Clone, Copy, Debug, PartialEq, Eq)]
pub enum Level {
    /// Nothing is cached.
    Nothing,
    /// Something is cached, and no writes.
    Something,
    /// Writes are cached.
    Writes,
}

/// A change of what a client caches, which happens at a position from the first to the last one. Where there is no last one, it
/// may have been left out.
#[derive(Clone, Copy, Debug, PartialEq, Eq)]
pub struct Change {
    /// What is cached from this change on.
    pub level: Level,
    /// The first position at which it may happen.
    pub first: u64,
    /// The last position at which it may happen.
    pub last: Option<u64>,
}

/// The changes of one lease of a client, in their order.
#[derive(Debug)]
pub struct Chain {
    /// The number of the client. It may have several chains.
    pub client: u64,
    /// The changes, in the order in which they happen.
    pub changes: Vec<Change>,
}

/// A change that is given its place: it happens at this position.
#[derive(Clone, Copy, Debug, PartialEq, Eq)]
pub struct Step {
    /// Where it happens.
    pub position: u64,
    /// The index of its chain.
    pub chain: usize,
    /// The index of the change in the chain.
    pub change: usize,
}

/// A charge: two clients clash, however the changes are placed.
#[derive(Debug)]
pub struct Charge {
    /// The first position such that two clients clash after a step at it or before it, however the changes are placed.
    pub position: u64,
    /// Steps that place the changes; no two clients clash after any of them that is before the position.
    pub steps: Vec<Step>,
}

/// What is said of chains.
#[derive(Debug)]
pub enum Placing {
    /// The changes can't be placed within their bounds at all.
    Contradictory,
    /// These steps place them, and no two clients clash after any of them.
    Clean(Vec<Step>),
    /// However they are placed, two clients clash.
    Unsafe(Charge),
    /// There are too many ways to place them, and nothing is known.
    TooMany,
}
