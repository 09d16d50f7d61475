// Made by tools/plain_rust from crates/lease_manager/src/requests/arrival.rt. Changes belong there.

use crate::proved::lease_manager::outs::Outs;
use crate::proved::lease_manager::requests::answer::conclude;
use crate::proved::lease_manager::requests::trial::try_now;
use crate::proved::lease_manager::tables::Tables;
use crate::proved::lease_manager::told::Told;
use crate::proved::lease_manager::values::number::{ClientNo, FileNo, Tag};
use crate::proved::lease_manager::values::request::{Ask, Held, Lane};
use crate::proved::lease_state::{FileId, LeaseKey, LeaseState, Memory, Status};

/// A request is tried as it comes.
///
/// # Errors
///
/// `Memory` where there is none left.
pub fn first_try(tables: &mut Tables, told: &mut Told, client: ClientNo, tag: Tag, ask: Ask) -> Result<(), Memory> {
    match file_asked(tables, client, ask) {
        Ok(file) => {
            try_on(tables, told, client, file, tag, ask)?;
            Ok(())
        }
        Err(status) => {
            told.refused(client, tag, status)?;
            Ok(())
        }
    }
}

// The file that the request is about, or the status that refuses it as it comes.
fn file_asked(tables: &Tables, client: ClientNo, ask: Ask) -> Result<FileNo, Status> {
    match ask {
        Ask::Create { file, .. } => {
            if tables.has_file(file) {
                Ok(file)
            } else {
                Err(Status::ObjectNameNotFound)
            }
        }
        Ask::Read { fid } => file_of_open(tables, client, fid),
        Ask::Write { fid, .. } => file_of_open(tables, client, fid),
        Ask::Close { fid } => file_of_open(tables, client, fid),
    }
}

fn file_of_open(tables: &Tables, client: ClientNo, fid: FileId) -> Result<FileNo, Status> {
    match tables.open_file(client, fid) {
        Some(file) => Ok(file),
        None => Err(Status::FileClosed),
    }
}

/// The lane of a request, as it comes.
pub fn lane_of(tables: &Tables, client: ClientNo, ask: Ask) -> Lane {
    match ask {
        Ask::Create { ask, .. } => lane_under(ask.lease),
        Ask::Read { fid } => tables.lane_of_open(client, fid),
        Ask::Write { fid, .. } => tables.lane_of_open(client, fid),
        Ask::Close { fid } => tables.lane_of_open(client, fid),
    }
}

// The lane of a create.
fn lane_under(asked: Option<(LeaseKey, LeaseState)>) -> Lane {
    match asked {
        Some((key, _)) => Lane::Leased(key),
        None => Lane::Alone,
    }
}

// A request waits after an earlier one that it waits behind (profile), and else is tried.
fn try_on(tables: &mut Tables, told: &mut Told, client: ClientNo, file: FileNo, tag: Tag, ask: Ask) -> Result<(), Memory> {
    let lane = lane_of(tables, client, ask);
    let one = Held { client, ask, lane, tag };
    if one.is_behind(tables.rules(), tables.held(file)) {
        tables.hold(file, one)?;
        told.waits(client, tag)?;
        return Ok(());
    }
    let mut outs = Outs::new(tables.alloc());
    let outcome = try_now(tables, told, &mut outs, client, ask)?;
    if outcome.waits() {
        told.tell(tag, &outs)?;
        tables.hold(file, one)?;
        told.waits(client, tag)?;
        return Ok(());
    }
    conclude(tables, &mut outs, client, ask, outcome)?;
    told.tell(tag, &outs)?;
    Ok(())
}
