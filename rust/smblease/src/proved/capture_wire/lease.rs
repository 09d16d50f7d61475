// Made by tools/plain_rust from crates/capture_wire/src/lease.rt. Changes belong there.

use crate::proved::capture_wire::fault::MessageFault;
use crate::proved::capture_wire::field::{has_flag, sixteen_at};
use crate::proved::capture_wire::part::check_fixed;
use crate::proved::lease_state::{LeaseKey, LeaseState};
use crate::proved::lease_wire::Direction;
use byteorder::{ByteOrder, LittleEndian};

// The data, and where their fields stand.
const SIZE: usize = 52;

const STATE_OFFSET: usize = 16;

const FLAGS_OFFSET: usize = 20;

const PARENT_KEY_OFFSET: usize = 32;

const EPOCH_OFFSET: usize = 48;

// SMB2_LEASE_FLAG_BREAK_IN_PROGRESS
const BREAK_IN_PROGRESS: u32 = 2;

// SMB2_LEASE_FLAG_PARENT_LEASE_KEY_SET
const PARENT_LEASE_KEY_SET: u32 = 4;

/// The value of an `RqLs` context of version 2 (MS-SMB2 2.2.13.2.10, 2.2.14.2.11).
#[derive(Clone, Copy, Debug, PartialEq, Eq)]
pub struct LeaseV2 {
    pub key: LeaseKey,
    pub state: LeaseState,
    /// SMB2_LEASE_FLAG_BREAK_IN_PROGRESS, which only a response reports.
    pub breaking: bool,
    /// ParentLeaseKey, where SMB2_LEASE_FLAG_PARENT_LEASE_KEY_SET says that it is set.
    pub parent: Option<LeaseKey>,
    pub epoch: u16,
}

fn is_breaking(direction: Direction, bytes: &[u8]) -> bool {
    match direction {
        Direction::Request => false,
        Direction::Reply => has_flag(BREAK_IN_PROGRESS, LittleEndian::read_u32(&bytes[FLAGS_OFFSET..])),
    }
}

fn parent_key(bytes: &[u8]) -> Option<LeaseKey> {
    if has_flag(PARENT_LEASE_KEY_SET, LittleEndian::read_u32(&bytes[FLAGS_OFFSET..])) {
        Some(LeaseKey(sixteen_at(bytes, PARENT_KEY_OFFSET)))
    } else {
        None
    }
}

/// The value of the data of an `RqLs` context of version 2, which are 52 bytes, in a request or in a response. State bits past 7
/// are passed over.
///
/// # Errors
///
/// `WrongLength` where there are fewer bytes than 52, or more; data of 32 bytes are those of version 1.
pub fn read_lease_v2(direction: Direction, bytes: &[u8]) -> Result<LeaseV2, MessageFault> {
    if bytes.len() != SIZE {
        return Err(MessageFault::WrongLength);
    }
    Ok(LeaseV2 {
        key: LeaseKey(sixteen_at(bytes, 0)),
        state: LeaseState::from_wire(LittleEndian::read_u32(&bytes[STATE_OFFSET..])),
        breaking: is_breaking(direction, bytes),
        parent: parent_key(bytes),
        epoch: LittleEndian::read_u16(&bytes[EPOCH_OFFSET..]),
    })
}

/// NewEpoch of a lease break notification that is all there.
pub(crate) fn new_epoch(message: &[u8]) -> u16 {
    LittleEndian::read_u16(&message[66..])
}

/// NewEpoch of a lease break notification (MS-SMB2 2.2.23.2), from its header on: the lease's epoch after the break, where the
/// lease is of version 2. `lease_wire::Notification` reads the other fields.
///
/// # Errors
///
/// `Short` where the message ends before its 108 bytes do, and `WrongSize` where StructureSize is not 44.
pub fn read_new_epoch(message: &[u8]) -> Result<u16, MessageFault> {
    check_fixed(message, 108, 44)?;
    Ok(new_epoch(message))
}
