// Made by tools/plain_rust from crates/lease_wire_v2/src/create/reading.rt. Changes belong there.

use crate::proved::lease_wire::{Context, Direction, WireFault, contexts};
use crate::proved::lease_wire_v2::create::meaning::{AnyDurable, Meaning, meaning_of};
use crate::proved::lease_wire_v2::create::{
    CreateAnswerV2, CreateAskV2, DurableAnswer, DurableAsk, LeaseAnswer, LeaseAsk, Reconnect,
};
use crate::proved::lease_wire_v2::fault::CreateFault;

/// What create contexts ask for or grant, gathered context by context.
#[derive(Clone, Copy)]
pub(crate) struct Values {
    pub(crate) lease: Option<LeaseAnswer>,
    pub(crate) durable: Option<AnyDurable>,
    pub(crate) reconnect: Option<Reconnect>,
}

fn goes_with(durable: AnyDurable, reconnect: Reconnect) -> bool {
    matches!((durable, reconnect), (AnyDurable::First, Reconnect::First(_)))
}

fn is_of_one_name(durable: AnyDurable, other: AnyDurable) -> bool {
    matches!(durable, AnyDurable::First) == matches!(other, AnyDurable::First)
}

fn reconnects_of_one_name(reconnect: Reconnect, other: Reconnect) -> bool {
    matches!(reconnect, Reconnect::First(_)) == matches!(other, Reconnect::First(_))
}

fn again(named: bool, place: usize) -> CreateFault {
    if named { CreateFault::Wire(WireFault::Twice(place)) } else { CreateFault::Excluded(place) }
}

impl Values {
    fn nothing() -> Values {
        Values { lease: None, durable: None, reconnect: None }
    }

    fn durable_fault(&self, place: usize, durable: AnyDurable) -> Option<CreateFault> {
        match (self.durable, self.reconnect) {
            (Some(other), _) => Some(again(is_of_one_name(durable, other), place)),
            (None, Some(reconnect)) if !goes_with(durable, reconnect) => Some(CreateFault::Excluded(place)),
            _ => None,
        }
    }

    fn reconnect_fault(&self, place: usize, reconnect: Reconnect) -> Option<CreateFault> {
        match (self.reconnect, self.durable) {
            (Some(other), _) => Some(again(reconnects_of_one_name(reconnect, other), place)),
            (None, Some(durable)) if !goes_with(durable, reconnect) => Some(CreateFault::Excluded(place)),
            _ => None,
        }
    }

    // The rule of names that a context at a place breaks after these.
    fn fault(&self, place: usize, meaning: Meaning) -> Option<CreateFault> {
        match meaning {
            Meaning::Unknown => None,
            Meaning::WrongLength => Some(CreateFault::Wire(WireFault::BadLength(place))),
            Meaning::Lease(_) if self.lease.is_some() => Some(CreateFault::Wire(WireFault::Twice(place))),
            Meaning::Lease(_) => None,
            Meaning::Durable(durable) => self.durable_fault(place, durable),
            Meaning::Reconnect(reconnect) => self.reconnect_fault(place, reconnect),
        }
    }

    // With what a context says.
    fn added(self, meaning: Meaning) -> Values {
        match meaning {
            Meaning::Unknown | Meaning::WrongLength => self,
            Meaning::Lease(lease) => Values { lease: Some(lease), ..self },
            Meaning::Durable(durable) => Values { durable: Some(durable), ..self },
            Meaning::Reconnect(reconnect) => Values { reconnect: Some(reconnect), ..self },
        }
    }

    // With what the context says, or the rule of names that it breaks.
    fn with_context(self, direction: Direction, context: &Context) -> Result<Values, CreateFault> {
        let meaning = meaning_of(direction, context);
        match self.fault(context.place, meaning) {
            Some(fault) => Err(fault),
            None => Ok(self.added(meaning)),
        }
    }
}

// What the contexts of a text ask for or grant, or the first fault.
fn gather(direction: Direction, bytes: &[u8]) -> Result<Values, CreateFault> {
    let mut values = Values::nothing();
    for item in contexts(bytes) {
        match item {
            Err(fault) => return Err(CreateFault::Wire(fault)),
            Ok(context) => values = values.with_context(direction, &context)?,
        }
    }
    Ok(values)
}

// A request reports no break in progress.
fn lease_asked(lease: Option<LeaseAnswer>) -> Option<LeaseAsk> {
    match lease {
        Some(lease) => Some(LeaseAsk { key: lease.key, state: lease.state, second: lease.second }),
        None => None,
    }
}

// A request grants nothing.
fn durable_asked(durable: Option<AnyDurable>) -> Option<DurableAsk> {
    match durable {
        Some(AnyDurable::First) => Some(DurableAsk::First),
        Some(AnyDurable::Asked(ask)) => Some(DurableAsk::Second(ask)),
        _ => None,
    }
}

// A response asks for nothing.
fn durable_granted(durable: Option<AnyDurable>) -> Option<DurableAnswer> {
    match durable {
        Some(AnyDurable::First) => Some(DurableAnswer::First),
        Some(AnyDurable::Granted(grant)) => Some(DurableAnswer::Second(grant)),
        _ => None,
    }
}

/// Reads the create contexts of a CREATE request, of either version (MS-SMB2 2.2.13.2). A text of no bytes asks for nothing;
/// contexts that aren't known are passed over. Reading allocates nothing.
///
/// # Errors
///
/// The first fault in the order of the text. Within a context the tests come in this order: its layout, as `lease_wire` has it;
/// the length of its data (`BadLength`), which is 32 or 52 of `RqLs`, 16 of `DHnQ` and `DHnC`, 32 of `DH2Q` and 36 of `DH2C`;
/// an earlier context of the same name (`Twice`); and an earlier durable context that excludes it (`Excluded`). Of durable
/// contexts only `DHnQ` and `DHnC` go together.
pub fn read_create_v2(bytes: &[u8]) -> Result<CreateAskV2, CreateFault> {
    match gather(Direction::Request, bytes) {
        Err(fault) => Err(fault),
        Ok(values) => Ok(CreateAskV2 {
            lease: lease_asked(values.lease),
            durable: durable_asked(values.durable),
            reconnect: values.reconnect,
        }),
    }
}

/// Reads the create contexts of a CREATE response, of either version (MS-SMB2 2.2.14.2), as [`read_create_v2`] those of a
/// request. `DHnQ` and `DH2Q` have 8 bytes of data there; `DHnC` and `DH2C` are not known.
///
/// # Errors
///
/// As those of [`read_create_v2`].
pub fn read_create_reply_v2(bytes: &[u8]) -> Result<CreateAnswerV2, CreateFault> {
    match gather(Direction::Reply, bytes) {
        Err(fault) => Err(fault),
        Ok(values) => Ok(CreateAnswerV2 { lease: values.lease, durable: durable_granted(values.durable) }),
    }
}
