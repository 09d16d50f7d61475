// Made by tools/plain_rust from crates/lease_manager/src/requests/answer.rt. Changes belong there.

use crate::proved::lease_manager::outs::Outs;
use crate::proved::lease_manager::requests::attempt::Outcome;
use crate::proved::lease_manager::requests::grant::{Opening, grant, reconnect};
use crate::proved::lease_manager::tables::Tables;
use crate::proved::lease_manager::values::closing::Closing;
use crate::proved::lease_manager::values::number::ClientNo;
use crate::proved::lease_manager::values::request::Ask;
use crate::proved::lease_state::{FileId, Memory};

/// Ends a try that doesn't wait: the request is refused or answered.
///
/// # Errors
///
/// `Memory` where there is none left.
pub fn conclude(tables: &mut Tables, outs: &mut Outs, client: ClientNo, ask: Ask, outcome: Outcome) -> Result<(), Memory> {
    match outcome {
        Outcome::Refused(status) => outs.refuse(client, status),
        Outcome::Waits => Ok(()),
        Outcome::Ready => answer(tables, outs, client, ask),
    }
}

// Answers a request about the file, which is ready.
fn answer(tables: &mut Tables, outs: &mut Outs, client: ClientNo, ask: Ask) -> Result<(), Memory> {
    match ask {
        Ask::Create { file, access, share, ask } => create(tables, outs, Opening { client, file, access, share, ask }),
        Ask::Read { .. } => read(outs, client),
        Ask::Write { .. } => write(outs, client),
        Ask::Close { fid } => close(tables, outs, client, fid),
    }
}

fn create(tables: &mut Tables, outs: &mut Outs, opening: Opening) -> Result<(), Memory> {
    match opening.ask.reconnect {
        Some(fid) => reconnect(tables, outs, opening.client, opening.ask.lease, fid),
        None => grant(tables, outs, opening),
    }
}

// A read goes on (profile; MS-SMB2 3.3.5.12).
fn read(outs: &mut Outs, client: ClientNo) -> Result<(), Memory> {
    outs.read_done(client)
}

// A write goes on: it is told that its file changes, and its reply follows directly (3.3.5.13).
fn write(outs: &mut Outs, client: ClientNo) -> Result<(), Memory> {
    outs.changed()?;
    outs.write_done(client)?;
    Ok(())
}

// An open is closed (3.3.5.10).
fn close(tables: &mut Tables, outs: &mut Outs, client: ClientNo, fid: FileId) -> Result<(), Memory> {
    tables.close(Closing::Named(fid))?;
    outs.close_done(client)?;
    Ok(())
}
