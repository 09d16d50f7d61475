// Made by tools/plain_rust from crates/lease_wire/src/field.rt. Changes belong there.

use crate::proved::lease_state::{LeaseKey, LeaseState};
use byteorder::{ByteOrder, LittleEndian};

/// The lease key in the sixteen bytes at a place of a message.
pub(crate) fn key_at(message: &[u8], place: usize) -> LeaseKey {
    let mut key = [0u8; 16];
    key.copy_from_slice(&message[place..place + 16]);
    LeaseKey(key)
}

/// The lease state in the four bytes at a place of a message. Bits past 7 are dropped.
pub(crate) fn state_at(message: &[u8], place: usize) -> LeaseState {
    LeaseState::from_wire(LittleEndian::read_u32(&message[place..]))
}
