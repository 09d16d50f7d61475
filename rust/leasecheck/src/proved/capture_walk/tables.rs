// Made by tools/plain_rust from crates/capture_walk/src/tables.rt. Changes belong there.

//! The server's own table of leases.
use std::prelude::Vec;

use crate::proved::capture_judge::{Chain, Change, Level};
use crate::proved::capture_walk::chains::{acknowledgment_at, cut_off, is_known, kept_until, last_shown, push_chain, push_doubt};
use crate::proved::capture_walk::event::{Acknowledged, Answered, Asked, Break, End, Event, Grant, Lease};
use crate::proved::capture_walk::index::Index;
use crate::proved::capture_walk::slices::from;
use smblease::proved::lease_state::Memory;
use std::alloc::Global;

// The answer to a request with a MessageId on a connection.
fn answered_at(connection: u64, id: u64, later: &[Event], since: Option<u64>) -> Option<Answered> {
    for event in later {
        if let Event::Answered(one) = event {
            if one.connection == connection && one.id == id && is_known(since, event) {
                return Some(*one);
            }
        }
    }
    None
}

// The last position of what a grant gives, where the lease was broken last at a position.
fn granted_by(grant: &Grant, broken: u64) -> Option<u64> {
    if broken <= grant.asked { Some(grant.sent.position) } else { None }
}

// What a grant gives, where this request shows the lease last.
fn push_granted(changes: &mut Vec<Change>, grant: &Grant, broken: u64, shown: Option<Asked>) -> Result<(), Memory> {
    changes.push(Change { level: grant.level, first: grant.asked, last: granted_by(grant, broken) })?;
    push_doubt(changes, true, kept_until(grant.asked, shown))
}

// What a request changes, by its answer.
fn push_changed(changes: &mut Vec<Change>, level: Level, asked: u64, answer: Option<Answered>) -> Result<(), Memory> {
    let last = match answer {
        Some(one) if !one.done => return Ok(()),
        Some(one) => Some(one.position),
        None => None,
    };
    changes.push(Change { level, first: asked, last })?;
    Ok(())
}

// What an acknowledgment that the server accepts leaves.
fn push_acknowledged(changes: &mut Vec<Change>, given: &Acknowledged, later: &[Event], since: Option<u64>) -> Result<(), Memory> {
    let answer = answered_at(given.connection, given.id, later, since);
    push_changed(changes, given.level, given.last, answer)
}

// What a break leaves, where it is acknowledged so, this request shows the lease last, and these events come after the break.
fn push_broken(
    changes: &mut Vec<Change>,
    broken: &Break,
    given: Option<Acknowledged>,
    shown: Option<Asked>,
    later: &[Event],
    since: Option<u64>,
) -> Result<(), Memory> {
    match given {
        Some(given) => {
            push_acknowledged(changes, &given, later, since)?;
            push_doubt(changes, true, kept_until(given.last, shown))
        }
        None if broken.acknowledged => Ok(()),
        None => {
            changes.push(Change { level: broken.level, first: 0, last: Some(broken.sent.position) })?;
            push_doubt(changes, true, kept_until(0, shown))
        }
    }
}

// What a CLOSE ends, by its answer.
fn push_closed(changes: &mut Vec<Change>, asked: u64, answer: Option<Answered>) -> Result<(), Memory> {
    match answer {
        None => push_doubt(changes, true, asked),
        Some(one) if one.done => {
            changes.push(Change { level: Level::Nothing, first: asked, last: Some(one.position) })?;
            Ok(())
        }
        Some(_) => push_doubt(changes, true, 0),
    }
}

// What the end of the last open leaves, where these events come after it.
fn push_ended(changes: &mut Vec<Change>, end: &End, later: &[Event], since: Option<u64>) -> Result<(), Memory> {
    match end.closing {
        Some(id) => push_closed(changes, end.last, answered_at(end.connection, id, later, since)),
        None => push_doubt(changes, true, end.first),
    }
}

// What an event changes of what the server holds for a lease, where a break by it is acknowledged so, and these come after it.
fn push_held(
    changes: &mut Vec<Change>,
    lease: Lease,
    broken: u64,
    event: &Event,
    given: Option<Acknowledged>,
    later: &[Event],
    since: Option<u64>,
    index: &Index,
) -> Result<(), Memory> {
    match event {
        Event::Granted(grant) if grant.lease.is(lease) => {
            let shown = last_shown(grant.lease, grant.sent, later, since, index);
            push_granted(changes, grant, broken, shown)
        }
        Event::Broken(one) if one.lease.is(lease) => {
            let shown = last_shown(one.lease, one.sent, later, since, index);
            push_broken(changes, one, given, shown, later, since)
        }
        Event::Ended(end) if end.lease.is(lease) => push_ended(changes, end, later, since),
        _ => Ok(()),
    }
}

// Where the lease was broken last, where it was so before.
fn broken_at(lease: Lease, before: u64, event: &Event) -> u64 {
    match event {
        Event::Broken(one) if one.lease.is(lease) => one.sent.position,
        _ => before,
    }
}

// What the first of these events changes, where these are the places of those about the lease after it. Says where the lease is
// broken last then.
fn push_first(
    changes: &mut Vec<Change>,
    lease: Lease,
    broken: u64,
    from: &[Event],
    places: &[usize],
    events: &[Event],
    since: Option<u64>,
    index: &Index,
) -> Result<u64, Memory> {
    let [event, later @ ..] = from else {
        return Ok(broken);
    };
    if !is_known(since, event) {
        return Ok(broken);
    }
    let given = acknowledgment_at(lease, places, events, since);
    push_held(changes, lease, broken, event, given, later, since, index)?;
    Ok(broken_at(lease, broken, event))
}

// What the server holds for a lease, change by change, by the events that count.
fn held(alloc: Global, lease: Lease, events: &[Event], since: Option<u64>, index: &Index) -> Result<Vec<Change>, Memory> {
    let mut changes = Vec::new(alloc);
    let mut broken = 0;
    let places = index.places(lease);
    for (number, place) in places.iter().enumerate() {
        broken = push_first(&mut changes, lease, broken, from(events, *place), &places[number + 1..], events, since, index)?;
    }
    Ok(changes)
}

// That up to where something of its client may be missing.
fn known_held(alloc: Global, lease: Lease, events: &[Event], index: &Index) -> Result<Vec<Change>, Memory> {
    let since = index.lost_since(lease);
    let mut changes = held(alloc, lease, events, since, index)?;
    cut_off(since, &mut changes)?;
    Ok(changes)
}

/// The chains of the server's own table for a file: for each lease on it what the server holds, change by change, with the
/// positions between which each happens, for `capture_judge::judge_placing`. Where they have no clean placement, the server held
/// leases that clash. From where something of a client may be missing its leases may be lost, and what comes later doesn't count.
/// The events are in the order of the capture.
///
/// # Errors
///
/// `Memory` where there is none left.
pub fn tables_on(alloc: Global, file: u64, events: &[Event], index: &Index) -> Result<Vec<Chain>, Memory> {
    let mut chains = Vec::new(alloc);
    for lease in index.leases_on(file) {
        let changes = known_held(alloc, *lease, events, index)?;
        push_chain(&mut chains, lease.client, changes)?;
    }
    Ok(chains)
}
