// Made by tools/plain_rust from crates/lease_manager/src/requests/passes.rt. Changes belong there.

use crate::proved::lease_manager::outs::Outs;
use crate::proved::lease_manager::requests::answer::conclude;
use crate::proved::lease_manager::requests::trial::try_now;
use crate::proved::lease_manager::tables::Tables;
use crate::proved::lease_manager::told::Told;
use crate::proved::lease_manager::values::number::FileNo;
use crate::proved::lease_state::Memory;

/// Tries what waits again (profile): files in the order of their numbers, and each until a pass over its queue answers
/// nothing.
///
/// # Errors
///
/// `Memory` where there is none left.
// docs/DECISIONS.md: "Calls that start passes".
pub fn try_all(tables: &mut Tables, told: &mut Told) -> Result<(), Memory> {
    let files = tables.waiting_files()?;
    try_files(tables, told, &files)?;
    Ok(())
}

// Passes over these files, one after another.
fn try_files(tables: &mut Tables, told: &mut Told, files: &[FileNo]) -> Result<(), Memory> {
    for file in files {
        try_held(tables, told, *file)?;
    }
    Ok(())
}

// Passes over a file, until one answers nothing.
fn try_held(tables: &mut Tables, told: &mut Told, file: FileNo) -> Result<(), Memory> {
    while pass(tables, told, file)? {}
    Ok(())
}

// A pass over what waits on a file, in order of arrival, from the first request on that isn't known to wait still: whether
// it answered a request.
fn pass(tables: &mut Tables, told: &mut Told, file: FileNo) -> Result<bool, Memory> {
    let mut place = tables.still(file);
    let mut answered = false;
    while place < tables.held(file).len() {
        if try_again(tables, told, file, place)? {
            answered = true;
        } else {
            place += 1;
        }
    }
    Ok(answered)
}

// Tries a request that waits again, unless it waits behind an earlier one: whether it was answered.
// docs/DECISIONS.md: "A held request's turn is judged at the moment".
fn try_again(tables: &mut Tables, told: &mut Told, file: FileNo, place: usize) -> Result<bool, Memory> {
    let held = tables.held(file);
    let one = &held[place];
    let client = one.client;
    let ask = one.ask;
    let tag = one.tag;
    if one.is_behind(tables.rules(), &held[..place]) {
        tables.count_still(file, place)?;
        return Ok(false);
    }
    if tables.has_only_to_wait(file, client, ask)? {
        tables.count_still(file, place)?;
        return Ok(false);
    }
    let mut outs = Outs::new(tables.alloc());
    let outcome = try_now(tables, told, &mut outs, client, ask)?;
    if outcome.waits() {
        told.tell(tag, &outs)?;
        return Ok(false);
    }
    tables.release(file, place);
    conclude(tables, &mut outs, client, ask, outcome)?;
    told.tell(tag, &outs)?;
    Ok(true)
}
