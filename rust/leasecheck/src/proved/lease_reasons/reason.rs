// Made by tools/plain_rust from crates/lease_reasons/src/reason.rt. Changes belong there.

use smblease::proved::lease_state::{Bytes, ClientNo, FileNo, LeaseState};
use std::prelude::Vec;

/// What a client believes of a file's lease, and the place where it noted that.
#[derive(Clone, Copy, Debug, PartialEq, Eq)]
pub struct Belief {
    pub client: ClientNo,
    pub place: usize,
    pub state: LeaseState,
}

/// What a cached read should have given.
#[derive(Debug)]
pub struct Expected {
    /// Where the client took the message that it took last.
    pub taken: usize,
    /// Where that message was sent.
    pub sent: usize,
    /// Where the file was started.
    pub started: Option<usize>,
    /// Where the file was changed last before the message was sent; `None` where it wasn't.
    pub changed: Option<usize>,
    /// Where the client was given the writes of the file that have no answer, in order.
    pub unanswered: Vec<usize>,
    pub bytes: Bytes,
}

/// Why a fact is malformed, or breaks a rule (profile). Facts are named by their places, which
/// count facts from 1.
#[derive(Debug)]
pub enum Reason {
    /// It names a file that wasn't started.
    NotStarted { file: FileNo },
    /// It starts a file that was started at this place.
    StartedAgain { file: FileNo, before: usize },
    /// Its patch ends past the limit of a file, at this offset.
    PastLimit { end: u128 },
    /// It gives the number of a write that the client was given at this place.
    NumberUsed { client: ClientNo, number: u64, before: usize },
    /// It takes a message for a client that didn't join.
    NotJoined { client: ClientNo },
    /// It takes a message, and all were taken that were sent since the client joined last, at this place.
    NothingToTake { client: ClientNo, joined: usize, sent: usize },
    /// Rule 1: two good clients believe these states of one file.
    TwoCaches { file: FileNo, writer: Belief, other: Belief },
    /// Rule 2: a cached read of a client that took no message since it joined.
    NoMessage { client: ClientNo, file: FileNo },
    /// Rule 2: a cached read of other bytes than these.
    StaleRead { client: ClientNo, file: FileNo, expected: Expected },
    /// Rule 3: the buffered write was given to the client at one place, and another client opened or changed the file first
    /// after that at the other.
    LateWrite { client: ClientNo, file: FileNo, number: u64, wrote: usize, touched: usize },
    /// Rule 4: the write was given to the client at one place, and a file was changed by a write of its number at the other, if
    /// at all; but not by that write, or not after it was given.
    FalseDone { client: ClientNo, number: u64, wrote: Option<usize>, changed: Option<usize> },
}
