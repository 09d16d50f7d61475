// Made by tools/plain_rust from crates/lease_manager/src/requests/acknowledge.rt. Changes belong there.

use crate::proved::lease_manager::outs::Outs;
use crate::proved::lease_manager::tables::Tables;
use crate::proved::lease_manager::values::key::LeaseName;
use crate::proved::lease_manager::values::lease::HeldLease;
use crate::proved::lease_state::{LeaseState, Memory, Status};

/// Judges an acknowledgment of a break of the key's lease (MS-SMB2 3.3.5.22.2).
///
/// # Errors
///
/// `Memory` where there is none left.
pub fn acknowledge(tables: &mut Tables, outs: &mut Outs, key: LeaseName, state: LeaseState) -> Result<(), Memory> {
    if !tables.has_lease(key) {
        return outs.refuse_ack(key.client, Status::ObjectNameNotFound);
    }
    match tables.lease(key).broken_to {
        Some(lowered) => {
            if state.is_within(lowered) {
                end_break(tables, outs, key, state)
            } else {
                outs.refuse_ack(key.client, Status::RequestNotAccepted)
            }
        }
        None => outs.refuse_ack(key.client, Status::Unsuccessful),
    }
}

// The lease has the granted form of the acknowledged state, and isn't breaking.
fn end_break(tables: &mut Tables, outs: &mut Outs, key: LeaseName, state: LeaseState) -> Result<(), Memory> {
    let lease = HeldLease { state: state.granted_form(), broken_to: None };
    tables.put_lease(key, lease)?;
    outs.ack_done(key, lease.state)
}
