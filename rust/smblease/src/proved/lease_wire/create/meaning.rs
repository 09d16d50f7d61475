// Made by tools/plain_rust from crates/lease_wire/src/create/meaning.rt. Changes belong there.

use crate::proved::lease_state::{FileId, LeaseKey, LeaseState};
use crate::proved::lease_wire::chain::Context;
use crate::proved::lease_wire::create::Direction;
use crate::proved::lease_wire::field::{key_at, state_at};
use byteorder::{ByteOrder, LittleEndian};

/// The value of an `RqLs` context (MS-SMB2 2.2.13.2.8, 2.2.14.2.10).
#[derive(Clone, Copy, Debug, PartialEq, Eq)]
pub struct Lease {
    pub key: LeaseKey,
    pub state: LeaseState,
    /// SMB2_LEASE_FLAG_BREAK_IN_PROGRESS, which only a response reports.
    pub breaking: bool,
}

/// What a context means by its name and its length.
#[derive(Clone, Copy)]
pub(crate) enum Meaning {
    /// It is passed over.
    Unknown,
    /// Its name is known, and its data have another length than their structure.
    WrongLength,
    Lease(Lease),
    Durable,
    Reconnect(FileId),
}

fn read_lease(direction: Direction, body: &[u8]) -> Lease {
    let flags = LittleEndian::read_u32(&body[20..]);
    Lease {
        key: key_at(body, 0),
        state: state_at(body, 16),
        breaking: match direction {
            Direction::Request => false,
            Direction::Reply => flags & 2 == 2,
        },
    }
}

fn durable_meaning(direction: Direction, body: &[u8]) -> Meaning {
    let size = match direction {
        Direction::Request => 16,
        Direction::Reply => 8,
    };
    if body.len() == size { Meaning::Durable } else { Meaning::WrongLength }
}

fn reconnect_meaning(direction: Direction, body: &[u8]) -> Meaning {
    match direction {
        Direction::Reply => Meaning::Unknown,
        Direction::Request if body.len() == 16 => Meaning::Reconnect(FileId(LittleEndian::read_u64(body))),
        Direction::Request => Meaning::WrongLength,
    }
}

fn lease_meaning(direction: Direction, body: &[u8]) -> Meaning {
    if body.len() == 32 { Meaning::Lease(read_lease(direction, body)) } else { Meaning::Unknown }
}

/// What the context means in a request or a response.
pub(crate) fn meaning_of(direction: Direction, context: &Context) -> Meaning {
    match context.name {
        [b'R', b'q', b'L', b's'] => lease_meaning(direction, context.body),
        [b'D', b'H', b'n', b'Q'] => durable_meaning(direction, context.body),
        [b'D', b'H', b'n', b'C'] => reconnect_meaning(direction, context.body),
        _ => Meaning::Unknown,
    }
}
