// Made by tools/plain_rust from crates/lease_wire_v2/src/lease.rt. Changes belong there.

use crate::proved::capture_wire::LeaseV2;
use crate::proved::lease_state::LeaseKey;
use crate::proved::lease_wire::Direction;
use byteorder::{ByteOrder, LittleEndian};

/// How many bytes the data of an `RqLs` context of version 2 take.
pub const LEASE_SIZE: usize = 52;

// Where the fields stand that carry a value.
const STATE_OFFSET: usize = 16;

const FLAGS_OFFSET: usize = 20;

const PARENT_KEY_OFFSET: usize = 32;

const EPOCH_OFFSET: usize = 48;

// SMB2_LEASE_FLAG_BREAK_IN_PROGRESS
const BREAK_IN_PROGRESS: u32 = 2;

// SMB2_LEASE_FLAG_PARENT_LEASE_KEY_SET
const PARENT_LEASE_KEY_SET: u32 = 4;

fn break_flag(direction: Direction, lease: &LeaseV2) -> u32 {
    match direction {
        Direction::Request => 0,
        Direction::Reply if lease.breaking => BREAK_IN_PROGRESS,
        Direction::Reply => 0,
    }
}

fn flags(direction: Direction, lease: &LeaseV2) -> u32 {
    if lease.parent.is_some() { break_flag(direction, lease) + PARENT_LEASE_KEY_SET } else { break_flag(direction, lease) }
}

fn parent_bytes(parent: Option<LeaseKey>) -> [u8; 16] {
    match parent {
        Some(key) => key.0,
        None => [0u8; 16],
    }
}

/// The data of an `RqLs` context of version 2 (MS-SMB2 2.2.13.2.10, 2.2.14.2.11) in a request or in a response, as their 52 bytes.
/// LeaseDuration and Reserved are 0, and so is ParentLeaseKey where there is none. A request has no bit for a break in
/// progress: none is written there. `capture_wire::read_lease_v2` reads the value back.
pub fn encode_lease_v2(direction: Direction, lease: &LeaseV2) -> [u8; LEASE_SIZE] {
    let LeaseV2 { key, state, breaking: _, parent, epoch } = *lease;
    let mut bytes = [0u8; LEASE_SIZE];
    LittleEndian::write_u32(&mut bytes[STATE_OFFSET..], state.to_wire());
    LittleEndian::write_u32(&mut bytes[FLAGS_OFFSET..], flags(direction, lease));
    LittleEndian::write_u16(&mut bytes[EPOCH_OFFSET..], epoch);
    bytes[PARENT_KEY_OFFSET..PARENT_KEY_OFFSET + 16].copy_from_slice(&parent_bytes(parent));
    bytes[..16].copy_from_slice(&key.0);
    bytes
}
