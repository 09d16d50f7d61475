// Made by tools/plain_rust from crates/lease_manager/src/restoring.rt. Changes belong there.

use crate::proved::lease_manager::keeping::first_tables;
use crate::proved::lease_manager::tables::Tables;
use crate::proved::lease_manager::values::kept::KeptOpen;
use crate::proved::lease_manager::values::number::FileNo;
use crate::proved::lease_manager::values::restore_error::RestoreError;
use crate::proved::lease_state::{FileId, Rules};
use std::alloc::Global;

/// The tables of a manager of these rules and files that has these opens, all of which wait for their clients, where this FileId
/// was given last.
///
/// # Errors
///
/// `Unlawful` where a law would be broken. `Memory` where there is none left, and never for no opens.
pub fn restored(alloc: Global, rules: Rules, files: FileNo, last: FileId, kept: &[KeptOpen]) -> Result<Tables, RestoreError> {
    let mut tables = first_tables(alloc, rules, files);
    for one in kept {
        tables.restore(last, *one)?;
    }
    tables.raise_last_id(last);
    Ok(tables)
}
