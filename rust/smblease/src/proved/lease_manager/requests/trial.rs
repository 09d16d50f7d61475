// Made by tools/plain_rust from crates/lease_manager/src/requests/trial.rt. Changes belong there.

use crate::proved::lease_manager::outs::Outs;
use crate::proved::lease_manager::requests::attempt::{Outcome, attempt};
use crate::proved::lease_manager::tables::Tables;
use crate::proved::lease_manager::told::Told;
use crate::proved::lease_manager::values::number::ClientNo;
use crate::proved::lease_manager::values::request::Ask;
use crate::proved::lease_state::Memory;

/// Tries a request. For each open that ends by that there is a decision.
///
/// # Errors
///
/// `Memory` where there is none left.
pub fn try_now(tables: &mut Tables, told: &mut Told, outs: &mut Outs, client: ClientNo, ask: Ask) -> Result<Outcome, Memory> {
    let mut ended = tables.none_ended();
    let outcome = attempt(tables, outs, &mut ended, client, ask)?;
    ended.tell(told)?;
    Ok(outcome)
}
