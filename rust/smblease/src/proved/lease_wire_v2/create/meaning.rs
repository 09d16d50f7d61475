// Made by tools/plain_rust from crates/lease_wire_v2/src/create/meaning.rt. Changes belong there.

use crate::proved::capture_wire::{
    DurableRequestV2, DurableResponseV2, read_durable_reconnect_v2, read_durable_request_v2, read_durable_response_v2,
    read_lease_v2,
};
use crate::proved::lease_wire::{Context, ContextValues, Direction};
use crate::proved::lease_wire_v2::create::{LeaseAnswer, Reconnect, SecondVersion};

const LEASE: &[u8; 4] = b"RqLs";

const DURABLE: &[u8; 4] = b"DH2Q";

const RECONNECT: &[u8; 4] = b"DH2C";

/// A durable context of a request or a response.
#[derive(Clone, Copy)]
pub(crate) enum AnyDurable {
    First,
    Asked(DurableRequestV2),
    Granted(DurableResponseV2),
}

/// What a context means by its name and its length.
#[derive(Clone, Copy)]
pub(crate) enum Meaning {
    /// It is passed over.
    Unknown,
    /// Its name is known, and its data have another length than their structure.
    WrongLength,
    Lease(LeaseAnswer),
    Durable(AnyDurable),
    Reconnect(Reconnect),
}

fn second_lease(direction: Direction, body: &[u8]) -> Meaning {
    match read_lease_v2(direction, body) {
        Err(_) => Meaning::WrongLength,
        Ok(lease) => Meaning::Lease(LeaseAnswer {
            key: lease.key,
            state: lease.state,
            breaking: lease.breaking,
            second: Some(SecondVersion { parent: lease.parent, epoch: lease.epoch }),
        }),
    }
}

// What lease_wire reads of one context.
fn values_meaning(values: &ContextValues) -> Meaning {
    if let Some(lease) = values.lease {
        return Meaning::Lease(LeaseAnswer { key: lease.key, state: lease.state, breaking: lease.breaking, second: None });
    }
    if let Some(file_id) = values.reconnect {
        return Meaning::Reconnect(Reconnect::First(file_id));
    }
    if values.durable { Meaning::Durable(AnyDurable::First) } else { Meaning::Unknown }
}

// What a context of version 1 means.
fn first_meaning(direction: Direction, context: &Context) -> Meaning {
    match ContextValues::nothing().with_context(direction, context) {
        Err(_) => Meaning::WrongLength,
        Ok(values) => values_meaning(&values),
    }
}

fn lease_meaning(direction: Direction, context: &Context) -> Meaning {
    match context.body.len() {
        52 => second_lease(direction, context.body),
        32 => first_meaning(direction, context),
        _ => Meaning::WrongLength,
    }
}

fn durable_request_meaning(body: &[u8]) -> Meaning {
    match read_durable_request_v2(body) {
        Ok(durable) => Meaning::Durable(AnyDurable::Asked(durable)),
        Err(_) => Meaning::WrongLength,
    }
}

fn durable_reply_meaning(body: &[u8]) -> Meaning {
    match read_durable_response_v2(body) {
        Ok(durable) => Meaning::Durable(AnyDurable::Granted(durable)),
        Err(_) => Meaning::WrongLength,
    }
}

fn durable_meaning(direction: Direction, body: &[u8]) -> Meaning {
    match direction {
        Direction::Request => durable_request_meaning(body),
        Direction::Reply => durable_reply_meaning(body),
    }
}

fn reconnect_request_meaning(body: &[u8]) -> Meaning {
    match read_durable_reconnect_v2(body) {
        Ok(reconnect) => Meaning::Reconnect(Reconnect::Second(reconnect)),
        Err(_) => Meaning::WrongLength,
    }
}

fn reconnect_meaning(direction: Direction, body: &[u8]) -> Meaning {
    match direction {
        Direction::Reply => Meaning::Unknown,
        Direction::Request => reconnect_request_meaning(body),
    }
}

/// What the context means in a request or a response.
pub(crate) fn meaning_of(direction: Direction, context: &Context) -> Meaning {
    if context.name == LEASE.as_slice() {
        lease_meaning(direction, context)
    } else if context.name == DURABLE.as_slice() {
        durable_meaning(direction, context.body)
    } else if context.name == RECONNECT.as_slice() {
        reconnect_meaning(direction, context.body)
    } else {
        first_meaning(direction, context)
    }
}
