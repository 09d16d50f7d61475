// Made by tools/plain_rust from crates/lease_manager/src/requests/attempt.rt. Changes belong there.

use crate::proved::lease_manager::ended::Ended;
use crate::proved::lease_manager::outs::Outs;
use crate::proved::lease_manager::requests::finding::Finding;
use crate::proved::lease_manager::tables::Tables;
use crate::proved::lease_manager::values::closing::Closing;
use crate::proved::lease_manager::values::key::LeaseName;
use crate::proved::lease_manager::values::lease::HeldLease;
use crate::proved::lease_manager::values::number::ClientNo;
use crate::proved::lease_manager::values::request::Ask;
use crate::proved::lease_manager::values::want::Want;
use crate::proved::lease_state::{LeaseState, Memory, Status};

/// How many rounds a try takes at most: one may break handles, one writes, and the last finds nothing
/// more.
// docs/DECISIONS.md: "A try or a pass ends when nothing is left to do".
const ROUNDS: u8 = 3;

/// How a try of a request ends.
#[derive(Clone, Copy, Debug)]
pub enum Outcome {
    Refused(Status),
    /// For an acknowledgment of a break.
    Waits,
    /// To be answered, on this file.
    Ready,
}

impl Outcome {
    /// Whether the request has to wait.
    pub fn waits(self) -> bool {
        match self {
            Outcome::Waits => true,
            Outcome::Refused(_) | Outcome::Ready => false,
        }
    }
}

/// Tries a request: in rounds, each of which breaks what the request wants, until it is ready,
/// refused, or has to wait.
pub fn attempt(tables: &mut Tables, outs: &mut Outs, ended: &mut Ended, client: ClientNo, ask: Ask) -> Result<Outcome, Memory> {
    for _round in 0..ROUNDS {
        if let Some(outcome) = round(tables, outs, ended, client, ask)? {
            return Ok(outcome);
        }
    }
    Ok(Outcome::Waits)
}

// One round; none of the outcomes where another round is due.
// docs/DECISIONS.md: "Wants are found before disconnected opens are closed".
fn round(tables: &mut Tables, outs: &mut Outs, ended: &mut Ended, client: ClientNo, ask: Ask) -> Result<Option<Outcome>, Memory> {
    match tables.finding(client, ask)? {
        Finding::Fails(status) => Ok(Some(Outcome::Refused(status))),
        Finding::Ready => Ok(Some(Outcome::Ready)),
        Finding::Needs(wants) => {
            meet_all(tables, outs, ended, &wants)?;
            if must_wait(tables, ask, &wants) { Ok(Some(Outcome::Waits)) } else { Ok(None) }
        }
    }
}

fn breaks_to_something(lease: HeldLease) -> bool {
    match lease.broken_to {
        Some(lowered) => lowered.holds_any(),
        None => false,
    }
}

/// Whether some lease of these keeps the request waiting.
pub fn must_wait(tables: &Tables, ask: Ask, wants: &[Want]) -> bool {
    wants.iter().any(|want| waits_for(ask, tables.lease(want.key)))
}

// Whether the lease keeps the request waiting.
fn waits_for(ask: Ask, lease: HeldLease) -> bool {
    match ask {
        Ask::Write { .. } => breaks_to_something(lease),
        _ => lease.is_breaking(),
    }
}

/// Meets wants one after another, each as far as that can be at once.
pub fn meet_all(tables: &mut Tables, outs: &mut Outs, ended: &mut Ended, wants: &[Want]) -> Result<(), Memory> {
    for want in wants {
        meet(tables, outs, ended, want)?;
    }
    Ok(())
}

// Meets a want as far as that can be at once: the key's disconnected opens are closed (profile),
// and its lease, if any is left, is broken.
fn meet(tables: &mut Tables, outs: &mut Outs, ended: &mut Ended, want: &Want) -> Result<(), Memory> {
    let ids = tables.close(Closing::LeftOf(want.key))?;
    ended.add_all(&ids)?;
    break_lease(tables, outs, want.key, want.lowered)?;
    Ok(())
}

// Breaks a lease that is still there and not breaking (MS-SMB2 3.3.4.7).
fn break_lease(tables: &mut Tables, outs: &mut Outs, key: LeaseName, lowered: LeaseState) -> Result<(), Memory> {
    let lease = tables.lease(key);
    if !tables.has_lease(key) || lease.is_breaking() {
        return Ok(());
    }
    tables.put_lease(key, broken(lease.state, lowered))?;
    outs.lease_broken(key, lease.state, lowered)?;
    Ok(())
}

// A lease that is broken keeps its state until the break is acknowledged; one of reads alone is
// lowered at once, and no acknowledgment is asked for.
fn broken(state: LeaseState, lowered: LeaseState) -> HeldLease {
    if state.needs_ack() { HeldLease { state, broken_to: Some(lowered) } } else { HeldLease { state: lowered, broken_to: None } }
}
