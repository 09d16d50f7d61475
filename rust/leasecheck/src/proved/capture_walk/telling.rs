// Made by tools/plain_rust from crates/capture_walk/src/telling.rt. Changes belong there.

use std::prelude::Vec;

use crate::proved::capture_judge::Level;
use crate::proved::capture_walk::event::{
    Acknowledged, Answered, Asked, Break, Closed, End, Event, Gone, Grant, Lease, Loss, Misnumbered, NotJudged, Proof, Remade,
    Said, Sent, Stray,
};
use crate::proved::capture_walk::latest::Latest;
use crate::proved::capture_walk::note::{BreakNote, KeyLevel, LeaseGiven, Note, OpenName, Seen};
use crate::proved::capture_walk::opens::{Open, is_under, may_end};
use smblease::proved::lease_state::{LeaseKey, Memory};

// The last open of a client with a lease under a key.
fn open_under(opens: &[Open], client: Option<u64>, key: LeaseKey) -> Option<Open> {
    let client = client?;
    for one in opens {
        if is_under(one.lease, client, key) {
            return Some(*one);
        }
    }
    None
}

// The lease that a client holds under a key.
fn lease_under(opens: &[Open], client: Option<u64>, key: LeaseKey) -> Option<Lease> {
    let client = client?;
    for one in opens {
        if is_under(one.lease, client, key) {
            return one.lease;
        }
    }
    None
}

// The open that a session names by a FileId.
fn open_named(opens: &[Open], server: u64, name: OpenName) -> Option<Open> {
    for one in opens {
        if one.is_named(server, name.session, name.file_id) {
            return Some(*one);
        }
    }
    None
}

fn is_of(lease: Lease, other: Option<Lease>) -> bool {
    match other {
        Some(other) => other.is(lease),
        None => false,
    }
}

// A request, by the open that it is about, if it is about one.
fn push_asked_of(events: &mut Vec<Event>, seen: &Seen<'_>, id: u64, one: Option<Open>) -> Result<(), Memory> {
    let (lease, opened) = match one {
        Some(one) => (one.lease, one.number),
        None => (None, 0),
    };
    events.push(Event::Asked(Asked { lease, opened, connection: seen.connection, id, position: seen.latest }))?;
    Ok(())
}

fn push_asked(events: &mut Vec<Event>, seen: &Seen<'_>, client: Option<u64>, opens: &[Open]) -> Result<(), Memory> {
    match seen.note {
        Note::OnOpen(name) | Note::Close(name) => push_asked_of(events, seen, name.id, open_named(opens, seen.server, name)),
        Note::Acknowledge(given) => push_asked_of(events, seen, given.id, open_under(opens, client, given.key)),
        Note::CreateAsked(asked) => push_asked_of(events, seen, asked.id, None),
        Note::TreeAsked(asked) => push_asked_of(events, seen, asked.id, None),
        Note::RenameAsked(id) | Note::Asked(id) => push_asked_of(events, seen, id, None),
        _ => Ok(()),
    }
}

/// The request that the message is, or the answer to one.
pub(crate) fn push_heard(events: &mut Vec<Event>, seen: &Seen<'_>, client: Option<u64>, opens: &[Open]) -> Result<(), Memory> {
    push_asked(events, seen, client, opens)?;
    if let Some(id) = seen.note.answered() {
        events.push(Event::Answered(Answered {
            connection: seen.connection,
            id,
            done: seen.note.is_done(),
            position: seen.latest,
        }))?;
    }
    Ok(())
}

// The last request with a MessageId on a connection.
fn last_asked(events: &[Event], connection: u64, id: u64) -> Option<Asked> {
    let mut found = None;
    for event in events {
        if let Event::Asked(one) = event {
            if one.connection == connection && one.id == id {
                found = Some(*one);
            }
        }
    }
    found
}

// The open that a request is about isn't there any more.
fn push_gone(events: &mut Vec<Event>, asked: Option<Asked>) -> Result<(), Memory> {
    if let Some(one) = asked {
        events.push(Event::Gone(Gone { opened: one.opened }))?;
    }
    Ok(())
}

// Whether an open under the lease is left after a message.
fn is_kept(seen: &Seen<'_>, made: Option<Open>, opens: &[Open], lease: Lease) -> bool {
    opens.iter().any(|one| !one.ends(seen, made) && is_of(lease, one.lease))
}

// The MessageId of a CLOSE.
fn closing(seen: &Seen<'_>) -> Option<u64> {
    match seen.note {
        Note::Close(name) => Some(name.id),
        _ => None,
    }
}

// The end of the lease of an open that ends.
fn push_ended_lease(
    events: &mut Vec<Event>,
    seen: &Seen<'_>,
    made: Option<Open>,
    opens: &[Open],
    one: &Open,
) -> Result<(), Memory> {
    if !one.ends(seen, made) {
        return Ok(());
    }
    let Some(lease) = one.lease else {
        return Ok(());
    };
    events.push(Event::Closed(Closed { opened: one.number }))?;
    if !is_kept(seen, made, opens, lease) {
        events.push(Event::Ended(End {
            lease,
            first: seen.earliest,
            last: seen.latest,
            connection: seen.connection,
            closing: closing(seen),
        }))?;
    }
    Ok(())
}

/// The leases that end with the opens that a message ends, by the open that it makes.
pub(crate) fn push_ended(events: &mut Vec<Event>, seen: &Seen<'_>, made: Option<Open>, opens: &[Open]) -> Result<(), Memory> {
    if !may_end(seen, made) {
        return Ok(());
    }
    for one in opens {
        push_ended_lease(events, seen, made, opens, one)?;
    }
    Ok(())
}

fn sent_at(seen: &Seen<'_>) -> Sent {
    Sent { connection: seen.connection, number: seen.number, position: seen.latest }
}

// That the response with an open was taken.
fn push_proof(events: &mut Vec<Event>, seen: &Seen<'_>, one: Option<Open>) -> Result<(), Memory> {
    if let Some(one) = one {
        events.push(Event::Taken(Proof { connection: one.connection, number: one.number, last: seen.latest }))?;
    }
    Ok(())
}

// A client of which nothing is sure.
fn lost(client: u64, reason: NotJudged) -> Event {
    Event::Lost(Loss { client, since: 0, reason })
}

// Whether an open is under the lease's key, and not of the lease.
fn is_elsewhere(lease: Lease, one: &Open) -> bool {
    is_under(one.lease, lease.client, lease.key) && !is_of(lease, one.lease)
}

fn has_dispute(lease: Lease, opens: &[Open]) -> bool {
    opens.iter().any(|one| is_elsewhere(lease, one))
}

// A lease whose key is that of another file, too.
fn push_disputed(events: &mut Vec<Event>, lease: Lease, opens: &[Open]) -> Result<(), Memory> {
    if has_dispute(lease, opens) {
        events.push(lost(lease.client, NotJudged::Disputed))?;
    }
    Ok(())
}

fn is_newer(before: u16, now: u16) -> bool {
    let ahead = now.wrapping_sub(before);
    0 < ahead && ahead < 0x8000
}

fn is_same_level(one: Level, other: Level) -> bool {
    matches!(
        (one, other),
        (Level::Nothing, Level::Nothing) | (Level::Something, Level::Something) | (Level::Writes, Level::Writes)
    )
}

fn is_in_order(before: Said, now: Said, asked: Option<u64>) -> bool {
    match asked {
        Some(asked) => now.sent.connection == before.sent.connection || before.sent.position < asked,
        None => now.sent.connection == before.sent.connection,
    }
}

fn shows_order(before: Said, now: Said, old: u16, new: u16) -> bool {
    is_newer(old, new) || (new == old && is_same_level(before.level, now.level))
}

fn follows_on(before: Said, now: Said, old: u16, new: u16) -> bool {
    shows_order(before, now, old, new) || (new == old && (!now.breaks || before.breaks))
}

fn push_misnumbered(events: &mut Vec<Event>, lease: Lease, before: Said, now: Said) -> Result<(), Memory> {
    let (Some(old), Some(new)) = (before.epoch, now.epoch) else {
        return Ok(());
    };
    if !follows_on(before, now, old, new) {
        events.push(Event::Misnumbered(Misnumbered { lease, before: old, epoch: new, position: now.sent.position }))?;
    }
    Ok(())
}

fn has_order(before: Said, now: Said) -> bool {
    match (before.epoch, now.epoch) {
        (Some(old), Some(new)) => shows_order(before, now, old, new),
        _ => false,
    }
}

// What is to be said of the order of a message of the server.
fn push_order(events: &mut Vec<Event>, lease: Lease, before: Option<Said>, now: Said, asked: Option<u64>) -> Result<(), Memory> {
    let Some(before) = before else {
        return Ok(());
    };
    if is_in_order(before, now, asked) {
        return push_misnumbered(events, lease, before, now);
    }
    if !has_order(before, now) {
        events.push(lost(lease.client, NotJudged::Disputed))?;
    }
    Ok(())
}

fn push_strayed(events: &mut Vec<Event>, lease: Lease, is_strayed: bool) -> Result<(), Memory> {
    if is_strayed {
        events.push(lost(lease.client, NotJudged::Disputed))?;
    }
    Ok(())
}

fn grant_of(seen: &Seen<'_>, given: LeaseGiven, lease: Lease, asked: u64) -> Grant {
    Grant { lease, state: given.state, level: given.level, sent: sent_at(seen), asked, epoch: given.epoch }
}

fn push_granted_lease(
    events: &mut Vec<Event>,
    seen: &Seen<'_>,
    given: LeaseGiven,
    lease: Lease,
    asked: u64,
    said: Option<Said>,
) -> Result<(), Memory> {
    if given.breaking {
        return Ok(());
    }
    let grant = grant_of(seen, given, lease, asked);
    push_order(events, lease, said, grant.said(), Some(asked))?;
    events.push(Event::Granted(grant))?;
    Ok(())
}

// The lease that a CREATE response grants to the open that it makes.
fn push_granted(
    events: &mut Vec<Event>,
    seen: &Seen<'_>,
    given: Option<LeaseGiven>,
    made: Option<Open>,
    opens: &[Open],
    latest: &Latest,
) -> Result<(), Memory> {
    let (Some(given), Some(one)) = (given, made) else {
        return Ok(());
    };
    let Some(lease) = one.lease else {
        return Ok(());
    };
    let said = latest.said(lease);
    let is_strayed = latest.has_stray(lease, seen.connection, one.asked);
    push_disputed(events, lease, opens)?;
    push_strayed(events, lease, is_strayed)?;
    push_granted_lease(events, seen, given, lease, one.asked, said)
}

fn push_lost_under(events: &mut Vec<Event>, key: LeaseKey, lease: Option<Lease>) -> Result<(), Memory> {
    if let Some(lease) = lease {
        if lease.key.0.as_slice() == key.0.as_slice() {
            events.push(lost(lease.client, NotJudged::Stranger))?;
        }
    }
    Ok(())
}

// A break where it isn't known whose its connection is.
fn push_strange_break(events: &mut Vec<Event>, key: LeaseKey, opens: &[Open]) -> Result<(), Memory> {
    for one in opens {
        push_lost_under(events, key, one.lease)?;
    }
    Ok(())
}

fn new_epoch(said: Option<Said>, epoch: u16) -> Option<u16> {
    match said?.epoch {
        Some(_) => Some(epoch),
        None => None,
    }
}

fn break_of(seen: &Seen<'_>, one: BreakNote, lease: Lease, said: Option<Said>) -> Break {
    Break {
        lease,
        state: one.state,
        level: one.level,
        sent: sent_at(seen),
        acknowledged: one.acknowledged,
        epoch: new_epoch(said, one.epoch),
    }
}

fn push_stray(events: &mut Vec<Event>, seen: &Seen<'_>, one: BreakNote, client: u64) -> Result<(), Memory> {
    events.push(Event::Stray(Stray { client, key: one.key, sent: sent_at(seen) }))?;
    Ok(())
}

fn push_broken_lease(
    events: &mut Vec<Event>,
    seen: &Seen<'_>,
    one: BreakNote,
    client: u64,
    opens: &[Open],
    latest: &Latest,
) -> Result<(), Memory> {
    let Some(lease) = lease_under(opens, Some(client), one.key) else {
        return push_stray(events, seen, one, client);
    };
    let said = latest.said(lease);
    let broken = break_of(seen, one, lease, said);
    push_disputed(events, lease, opens)?;
    push_order(events, lease, said, broken.said(), None)?;
    events.push(Event::Broken(broken))?;
    Ok(())
}

fn push_broken(
    events: &mut Vec<Event>,
    seen: &Seen<'_>,
    one: BreakNote,
    client: Option<u64>,
    opens: &[Open],
    latest: &Latest,
) -> Result<(), Memory> {
    match client {
        Some(client) => push_broken_lease(events, seen, one, client, opens, latest),
        None => push_strange_break(events, one.key, opens),
    }
}

// That a break was taken.
fn push_taken_break(events: &mut Vec<Event>, seen: &Seen<'_>, sent: Option<Sent>) -> Result<(), Memory> {
    if let Some(sent) = sent {
        events.push(Event::Taken(Proof { connection: sent.connection, number: sent.number, last: seen.latest }))?;
    }
    Ok(())
}

fn push_acknowledged(
    events: &mut Vec<Event>,
    seen: &Seen<'_>,
    given: KeyLevel,
    lease: Option<Lease>,
    latest: &Latest,
) -> Result<(), Memory> {
    let Some(lease) = lease else {
        return Ok(());
    };
    let sent = latest.broken(lease);
    events.push(Event::Acknowledged(Acknowledged {
        lease,
        level: given.level,
        connection: seen.connection,
        id: given.id,
        last: seen.latest,
    }))?;
    push_taken_break(events, seen, sent)
}

fn missing(client: u64, since: u64) -> Event {
    Event::Lost(Loss { client, since, reason: NotJudged::Missing })
}

fn push_lost_at(events: &mut Vec<Event>, server: u64, since: u64, one: &Open) -> Result<(), Memory> {
    if let Some(lease) = one.lease {
        if one.server == server {
            events.push(missing(lease.client, since))?;
        }
    }
    Ok(())
}

// A gap in a connection of which it isn't known whose it is.
fn push_lost_around(events: &mut Vec<Event>, server: u64, since: u64, opens: &[Open]) -> Result<(), Memory> {
    for one in opens {
        push_lost_at(events, server, since, one)?;
    }
    Ok(())
}

// A gap in a connection.
fn push_lost(events: &mut Vec<Event>, seen: &Seen<'_>, client: Option<u64>, since: u64, opens: &[Open]) -> Result<(), Memory> {
    match client {
        Some(client) => events.push(missing(client, since))?,
        None => push_lost_around(events, seen.server, since, opens)?,
    }
    Ok(())
}

// That all messages of the server on a connection were taken.
fn push_all_taken(events: &mut Vec<Event>, seen: &Seen<'_>) -> Result<(), Memory> {
    events.push(Event::Taken(Proof { connection: seen.connection, number: seen.number, last: seen.latest }))?;
    Ok(())
}

/// A file is made in the place of another one.
pub(crate) fn push_remade(events: &mut Vec<Event>, remade: Option<Remade>) -> Result<(), Memory> {
    if let Some(one) = remade {
        events.push(Event::Remade(one))?;
    }
    Ok(())
}

/// What a message shows besides, by the client of its connection, the open that it makes, from where on something is missing if
/// it is a gap, the opens before it, and what the events before say last.
pub(crate) fn push_told(
    events: &mut Vec<Event>,
    seen: &Seen<'_>,
    client: Option<u64>,
    made: Option<Open>,
    since: u64,
    opens: &[Open],
    latest: &Latest,
) -> Result<(), Memory> {
    match seen.note {
        Note::CreateGiven(given) => push_granted(events, seen, given.lease, made, opens, latest),
        Note::OnOpen(name) | Note::Close(name) => push_proof(events, seen, open_named(opens, seen.server, name)),
        Note::Acknowledge(given) => {
            let lease = lease_under(opens, client, given.key);
            push_acknowledged(events, seen, given, lease, latest)
        }
        Note::Break(one) => push_broken(events, seen, one, client, opens, latest),
        Note::Gone(id) => {
            let asked = last_asked(events, seen.connection, id);
            push_gone(events, asked)
        }
        Note::Gap => push_lost(events, seen, client, since, opens),
        Note::Taken => push_all_taken(events, seen),
        _ => Ok(()),
    }
}
