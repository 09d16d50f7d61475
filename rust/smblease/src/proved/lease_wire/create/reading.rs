// Made by tools/plain_rust from crates/lease_wire/src/create/reading.rt. Changes belong there.

use crate::proved::lease_state::{FileId, LeaseKey, LeaseState};
use crate::proved::lease_wire::chain::{Context, contexts};
use crate::proved::lease_wire::create::meaning::{Lease, Meaning, meaning_of};
use crate::proved::lease_wire::create::{CreateAnswer, CreateAsk, Direction};
use crate::proved::lease_wire::fault::WireFault;

/// What create contexts ask for or grant, gathered context by context: for those who look at each
/// one on the way. [`read_create`] and [`read_create_reply`] read a whole text.
#[derive(Clone, Copy, Debug, PartialEq, Eq)]
pub struct ContextValues {
    pub lease: Option<Lease>,
    pub durable: bool,
    /// Only a request has one.
    pub reconnect: Option<FileId>,
}

impl ContextValues {
    /// The values of no contexts.
    pub fn nothing() -> ContextValues {
        ContextValues { lease: None, durable: false, reconnect: None }
    }

    /// These values with those of one more context of a request or a response.
    ///
    /// # Errors
    ///
    /// `BadLength` or `Twice`, with the context's place, where it breaks a rule of names.
    pub fn with_context(self, direction: Direction, context: &Context) -> Result<ContextValues, WireFault> {
        self.with(context.place, meaning_of(direction, context))
    }

    // With what the context at a place means, or the rule of names that it breaks.
    fn with(self, place: usize, meaning: Meaning) -> Result<ContextValues, WireFault> {
        match meaning {
            Meaning::Unknown => Ok(self),
            Meaning::WrongLength => Err(WireFault::BadLength(place)),
            Meaning::Lease(_) if self.lease.is_some() => Err(WireFault::Twice(place)),
            Meaning::Durable if self.durable => Err(WireFault::Twice(place)),
            Meaning::Reconnect(_) if self.reconnect.is_some() => Err(WireFault::Twice(place)),
            Meaning::Lease(lease) => Ok(ContextValues { lease: Some(lease), ..self }),
            Meaning::Durable => Ok(ContextValues { durable: true, ..self }),
            Meaning::Reconnect(file_id) => Ok(ContextValues { reconnect: Some(file_id), ..self }),
        }
    }
}

// What the contexts of a text ask for or grant, or the first fault.
#[inline(always)]
fn gather(direction: Direction, bytes: &[u8]) -> Result<ContextValues, WireFault> {
    let mut values = ContextValues::nothing();
    for item in contexts(bytes) {
        let context = item?;
        values = values.with_context(direction, &context)?;
    }
    Ok(values)
}

// A request reports no break in progress.
fn asked_lease(lease: Option<Lease>) -> Option<(LeaseKey, LeaseState)> {
    match lease {
        Some(lease) => Some((lease.key, lease.state)),
        None => None,
    }
}

fn granted_lease(lease: Option<Lease>) -> Option<(LeaseKey, LeaseState, bool)> {
    match lease {
        Some(lease) => Some((lease.key, lease.state, lease.breaking)),
        None => None,
    }
}

/// Reads the create contexts of a CREATE request (MS-SMB2 2.2.13.2). A text of no bytes asks for
/// nothing; contexts that aren't known are passed over.
///
/// # Errors
///
/// The first fault in the order of the text. Within a context the tests come in the order of the
/// faults' numbers. Reading allocates nothing.
pub fn read_create(bytes: &[u8]) -> Result<CreateAsk, WireFault> {
    match gather(Direction::Request, bytes) {
        Err(fault) => Err(fault),
        Ok(values) => Ok(CreateAsk { lease: asked_lease(values.lease), durable: values.durable, reconnect: values.reconnect }),
    }
}

/// Reads the create contexts of a CREATE response (MS-SMB2 2.2.14.2), as [`read_create`] those of
/// a request. A `DHnC` is not known there.
///
/// # Errors
///
/// As those of [`read_create`].
pub fn read_create_reply(bytes: &[u8]) -> Result<CreateAnswer, WireFault> {
    match gather(Direction::Reply, bytes) {
        Err(fault) => Err(fault),
        Ok(values) => Ok(CreateAnswer { lease: granted_lease(values.lease), durable: values.durable }),
    }
}
