// Made by tools/plain_rust from crates/lease_manager/src/requests/grant.rt. Changes belong there.

use crate::proved::lease_manager::outs::Outs;
use crate::proved::lease_manager::tables::Tables;
use crate::proved::lease_manager::values::decision::CreateAnswer;
use crate::proved::lease_manager::values::key::LeaseName;
use crate::proved::lease_manager::values::lease::HeldLease;
use crate::proved::lease_manager::values::number::{ClientNo, FileNo};
use crate::proved::lease_manager::values::open::OpenEntry;
use crate::proved::lease_manager::values::request::CreateAsk;
use crate::proved::lease_state::{Access, FileId, LeaseKey, LeaseState, Memory, Rise, Share, Status};

/// A create that is ready, with its client.
#[derive(Clone, Copy, Debug)]
pub struct Opening {
    pub client: ClientNo,
    pub file: FileNo,
    pub access: Access,
    pub share: Share,
    pub ask: CreateAsk,
}

/// Grants a new open. FileIds are 1, 2, 3 and so on, never used again (profile); after the last
/// there is no grant.
///
/// # Errors
///
/// `Memory` where there is none left.
// docs/DECISIONS.md: "A lease belongs to one file".
pub fn grant(tables: &mut Tables, outs: &mut Outs, opening: Opening) -> Result<(), Memory> {
    if tables.last_id() == u64::MAX {
        return outs.refuse(opening.client, Status::InsufficientResources);
    }
    let lease = lease_after(tables, opening.client, opening.file, opening.ask.lease);
    grant_with(tables, outs, opening, lease)
}

// Grants a new open with this lease.
// docs/DECISIONS.md: "A durable grant looks at the lease's state alone".
fn grant_with(tables: &mut Tables, outs: &mut Outs, opening: Opening, lease: HeldLease) -> Result<(), Memory> {
    let Opening { client, file, access, share, ask } = opening;
    let durable = ask.durable && lease.state.caches_handles();
    let file_id = FileId(tables.last_id() + 1);
    let one = OpenEntry { file_id, client, file, lease_key: key_bytes(ask.lease), access, share, durable, connected: true };
    tables.open(one, lease)?;
    outs.opened()?;
    let answer = CreateAnswer { lease: lease_given(ask.lease, lease), durable };
    outs.created(client, file_id, answer)
}

// The key in an RqLs context.
fn key_bytes(asked: Option<(LeaseKey, LeaseState)>) -> Option<LeaseKey> {
    match asked {
        Some((bytes, _)) => Some(bytes),
        None => None,
    }
}

// The RqLs context of the reply (MS-SMB2 2.2.14.2.10).
fn lease_given(asked: Option<(LeaseKey, LeaseState)>, lease: HeldLease) -> Option<(LeaseKey, LeaseState, bool)> {
    match asked {
        Some((bytes, _)) => Some((bytes, lease.state, lease.is_breaking())),
        None => None,
    }
}

// The lease after a grant; none for a create without an RqLs context.
fn lease_after(tables: &Tables, client: ClientNo, file: FileNo, asked: Option<(LeaseKey, LeaseState)>) -> HeldLease {
    match asked {
        Some((bytes, want)) => lease_granted(tables, LeaseName { client, bytes }, file, want),
        None => HeldLease::none(),
    }
}

// One that is breaking stays; one within the granted form of the want, a new one too, becomes what is
// offered where it may; any other stays (profile).
fn lease_granted(tables: &Tables, key: LeaseName, file: FileNo, want: LeaseState) -> HeldLease {
    let lease = tables.lease(key);
    if lease.is_breaking() || !lease.state.is_within(want.granted_form()) {
        return lease;
    }
    let state = offered(tables, key, file, want);
    if !may_rise(tables, key, state, want) {
        return lease;
    }
    HeldLease { state, broken_to: None }
}

// A lease becomes what it is offered, or, by the rule, does so only where it is new or all of the want is
// offered.
fn may_rise(tables: &Tables, key: LeaseName, offer: LeaseState, want: LeaseState) -> bool {
    tables.rules().rise == Rise::AsFree || !tables.has_lease(key) || want.granted_form().is_within(offer)
}

// What a key is offered: nothing where its timer ran out (profile).
// docs/DECISIONS.md: "Expired keys count in a grant only".
fn offered(tables: &Tables, key: LeaseName, file: FileNo, want: LeaseState) -> LeaseState {
    if tables.is_expired(key) { LeaseState::NONE } else { tables.allowed(Some(key), file, want) }
}

/// Connects a durable open again (MS-SMB2 3.3.5.9.7): nothing is opened, and the lease is reported
/// as it stands.
///
/// # Errors
///
/// `Memory` where there is none left.
pub fn reconnect(
    tables: &mut Tables,
    outs: &mut Outs,
    client: ClientNo,
    asked: Option<(LeaseKey, LeaseState)>,
    file_id: FileId,
) -> Result<(), Memory> {
    let lease = standing_lease(tables, client, asked);
    tables.connect_again(file_id)?;
    let answer = CreateAnswer { lease: lease_given(asked, lease), durable: false };
    outs.created(client, file_id, answer)
}

// The lease of the key that a create names.
fn standing_lease(tables: &Tables, client: ClientNo, asked: Option<(LeaseKey, LeaseState)>) -> HeldLease {
    match asked {
        Some((bytes, _)) => tables.lease(LeaseName { client, bytes }),
        None => HeldLease::none(),
    }
}
