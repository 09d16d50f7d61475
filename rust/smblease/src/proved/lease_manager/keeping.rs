// Made by tools/plain_rust from crates/lease_manager/src/keeping.rt. Changes belong there.

use crate::proved::lease_manager::calls;
use crate::proved::lease_manager::tables::Tables;
use crate::proved::lease_manager::told::Told;
use crate::proved::lease_manager::values::coming::Coming;
use crate::proved::lease_manager::values::number::{ClientNo, FileNo, Tag};
use crate::proved::lease_state::{FileId, Memory, Rules};
use std::alloc::Global;

/// The tables of a manager of these rules, where this is the last number of a file and nothing is open. Allocates nothing.
pub fn first_tables(alloc: Global, rules: Rules, files: FileNo) -> Tables {
    Tables::new(alloc, rules, files)
}

/// Something comes whose decisions a host has to carry out, and the laws stay.
///
/// # Errors
///
/// `Memory` where there is none left.
pub fn handle(tables: &mut Tables, told: &mut Told, coming: Coming) -> Result<(), Memory> {
    calls::handle(tables, told, coming)
}

/// A client connects, and the laws stay.
///
/// # Errors
///
/// `Memory` where there is none left.
pub fn join(tables: &mut Tables, client: ClientNo) -> Result<(), Memory> {
    calls::join(tables, client)
}

/// A client leaves some of its opens, and requests that wait, and the laws stay.
///
/// # Errors
///
/// `Memory` where there is none left.
pub fn leave(tables: &mut Tables, told: &mut Told, client: ClientNo, file_ids: &[FileId], tags: &[Tag]) -> Result<(), Memory> {
    calls::leave(tables, told, client, file_ids, tags)
}

/// A call came to this. Where memory ran out all is forgotten but the rules and the last number of a file, which are these.
///
/// # Errors
///
/// What the call came to.
pub fn ended(tables: &mut Tables, came: Result<(), Memory>, rules: Rules, files: FileNo) -> Result<(), Memory> {
    match came {
        Ok(()) => Ok(()),
        Err(Memory) => {
            *tables = first_tables(tables.alloc(), rules, files);
            Err(Memory)
        }
    }
}
