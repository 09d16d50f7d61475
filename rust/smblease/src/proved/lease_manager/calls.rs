// Made by tools/plain_rust from crates/lease_manager/src/calls.rt. Changes belong there.

use crate::proved::lease_manager::outs::Outs;
use crate::proved::lease_manager::requests::acknowledge::acknowledge as judge;
use crate::proved::lease_manager::requests::arrival::first_try;
use crate::proved::lease_manager::requests::giving_up::break_others;
use crate::proved::lease_manager::requests::passes::try_all;
use crate::proved::lease_manager::tables::Tables;
use crate::proved::lease_manager::told::Told;
use crate::proved::lease_manager::values::closing::Closing;
use crate::proved::lease_manager::values::coming::Coming;
use crate::proved::lease_manager::values::extent::Extent;
use crate::proved::lease_manager::values::key::LeaseName;
use crate::proved::lease_manager::values::number::{ClientNo, FileNo, Tag};
use crate::proved::lease_manager::values::request::Ask;
use crate::proved::lease_state::{FileId, LeaseState, Memory, Status};

/// The tag of what answers no request under a tag.
const NO_TAG: Tag = Tag(0);

/// Something comes whose decisions a host has to carry out.
pub fn handle(tables: &mut Tables, told: &mut Told, coming: Coming) -> Result<(), Memory> {
    match coming {
        Coming::Asks { client, tag, ask } => receive(tables, told, client, tag, ask),
        Coming::Acknowledges { key, state } => acknowledge(tables, told, key, state),
        Coming::IsMalformed(client) => acknowledge_malformed(tables, told, client),
        Coming::IsCut(client) => cut(tables, told, client),
        Coming::Expires(key) => expire(tables, told, key),
        Coming::Scavenges(fid) => scavenge(tables, told, fid),
        Coming::Withdraws { file, client, tag } => withdraw(tables, told, file, client, tag),
        Coming::GivesUp { own, file, extent } => give_up(tables, told, own, file, extent),
    }
}

/// A client connects.
pub fn join(tables: &mut Tables, client: ClientNo) -> Result<(), Memory> {
    if !tables.is_present(client) {
        tables.join(client)?;
    }
    Ok(())
}

/// A request of a client comes.
pub fn receive(tables: &mut Tables, told: &mut Told, client: ClientNo, tag: Tag, ask: Ask) -> Result<(), Memory> {
    if tables.is_present(client) {
        arrive(tables, told, client, tag, ask)?;
    }
    Ok(())
}

// After a close what waits is tried again (profile).
fn arrive(tables: &mut Tables, told: &mut Told, client: ClientNo, tag: Tag, ask: Ask) -> Result<(), Memory> {
    match ask {
        Ask::Close { .. } => {
            first_try(tables, told, client, tag, ask)?;
            try_all(tables, told)?;
            Ok(())
        }
        Ask::Create { .. } | Ask::Read { .. } | Ask::Write { .. } => {
            first_try(tables, told, client, tag, ask)?;
            Ok(())
        }
    }
}

/// A client acknowledges a break of its lease.
pub fn acknowledge(tables: &mut Tables, told: &mut Told, key: LeaseName, state: LeaseState) -> Result<(), Memory> {
    if tables.is_present(key.client) {
        judge_told(tables, told, key, state)?;
        try_all(tables, told)?;
    }
    Ok(())
}

/// An acknowledgment comes that can't be read.
pub fn acknowledge_malformed(tables: &mut Tables, told: &mut Told, client: ClientNo) -> Result<(), Memory> {
    if tables.is_present(client) {
        told.not_acknowledged(client, Status::InvalidParameter)?;
        try_all(tables, told)?;
    }
    Ok(())
}

// The acknowledgment is judged, and it is told how.
fn judge_told(tables: &mut Tables, told: &mut Told, key: LeaseName, state: LeaseState) -> Result<(), Memory> {
    let mut outs = Outs::new(tables.alloc());
    judge(tables, &mut outs, key, state)?;
    told.tell(NO_TAG, &outs)?;
    Ok(())
}

/// A client's connection is lost.
pub fn cut(tables: &mut Tables, told: &mut Told, client: ClientNo) -> Result<(), Memory> {
    if tables.is_present(client) {
        lose(tables, told, client)?;
        try_all(tables, told)?;
    }
    Ok(())
}

// The client's opens that don't outlive its connection are closed, the others disconnected, and the connection and its
// requests that wait are forgotten.
fn lose(tables: &mut Tables, told: &mut Told, client: ClientNo) -> Result<(), Memory> {
    let named = tables.of_client(client)?;
    let parted = tables.part(&named)?;
    told.ended_all(&parted.ended)?;
    told.left_behind_all(&parted.left)?;
    tables.forget(client)?;
    Ok(())
}

/// The timer of a lease break runs out.
pub fn expire(tables: &mut Tables, told: &mut Told, key: LeaseName) -> Result<(), Memory> {
    if tables.lease(key).is_breaking() {
        end_lease(tables, told, key)?;
        try_all(tables, told)?;
    }
    Ok(())
}

// All opens of the lease are closed, and the key is expired.
fn end_lease(tables: &mut Tables, told: &mut Told, key: LeaseName) -> Result<(), Memory> {
    let ids = tables.close(Closing::Of(key))?;
    told.ended_all(&ids)?;
    tables.expire(key)?;
    Ok(())
}

/// The timer of a durable open runs out.
pub fn scavenge(tables: &mut Tables, told: &mut Told, fid: FileId) -> Result<(), Memory> {
    if tables.has_left_behind(fid) {
        end_open(tables, told, fid)?;
        try_all(tables, told)?;
    }
    Ok(())
}

// The open that was left behind is closed.
fn end_open(tables: &mut Tables, told: &mut Told, fid: FileId) -> Result<(), Memory> {
    let ids = tables.close(Closing::LeftBehind(fid))?;
    told.ended_all(&ids)?;
    Ok(())
}

/// A request that waits is taken back.
pub fn withdraw(tables: &mut Tables, told: &mut Told, file: FileNo, client: ClientNo, tag: Tag) -> Result<(), Memory> {
    if tables.waits_under(file, client, tag) {
        take_back(tables, told, file, client, tag)?;
        try_all(tables, told)?;
    }
    Ok(())
}

// The request no longer waits.
fn take_back(tables: &mut Tables, told: &mut Told, file: FileNo, client: ClientNo, tag: Tag) -> Result<(), Memory> {
    tables.withdraw(file, client, tag);
    told.withdrawn(client, tag)?;
    Ok(())
}

/// A client leaves some of its opens, and requests that wait, and stays connected.
pub fn leave(tables: &mut Tables, told: &mut Told, client: ClientNo, file_ids: &[FileId], tags: &[Tag]) -> Result<(), Memory> {
    if tables.is_present(client) {
        let_go(tables, told, client, file_ids, tags)?;
        try_all(tables, told)?;
    }
    Ok(())
}

// Of these opens those that don't outlive a connection are closed, and the others disconnected, and these requests are forgotten.
fn let_go(tables: &mut Tables, told: &mut Told, client: ClientNo, file_ids: &[FileId], tags: &[Tag]) -> Result<(), Memory> {
    let named = tables.named(client, file_ids)?;
    let parted = tables.part(&named)?;
    told.ended_all(&parted.ended)?;
    told.left_behind_all(&parted.left)?;
    tables.leave(client, tags)?;
    Ok(())
}

/// Other keys on a file give up what they hold.
pub fn give_up(tables: &mut Tables, told: &mut Told, own: Option<LeaseName>, file: FileNo, extent: Extent) -> Result<(), Memory> {
    break_others(tables, told, own, file, extent)?;
    try_all(tables, told)?;
    Ok(())
}
