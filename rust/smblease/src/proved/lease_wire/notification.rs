// Made by tools/plain_rust from crates/lease_wire/src/notification.rt. Changes belong there.

use crate::proved::lease_state::{LeaseKey, LeaseState};
use crate::proved::lease_wire::fault::WireFault;
use crate::proved::lease_wire::field::{key_at, state_at};
use byteorder::{ByteOrder, LittleEndian};

// Where the fields stand that carry a value.
const FLAGS_OFFSET: usize = 4;

const KEY_OFFSET: usize = 8;

const CURRENT_STATE_OFFSET: usize = 24;

const NEW_STATE_OFFSET: usize = 28;

// SMB2_NOTIFY_BREAK_LEASE_FLAG_ACK_REQUIRED
const ACK_REQUIRED: u32 = 1;

/// A lease break notification (MS-SMB2 2.2.23.2), by which the server lowers a client's lease.
#[derive(Clone, Copy, Debug, PartialEq, Eq)]
pub struct Notification {
    /// SMB2_NOTIFY_BREAK_LEASE_FLAG_ACK_REQUIRED: the client has to acknowledge the break.
    pub ack_required: bool,
    pub key: LeaseKey,
    /// CurrentLeaseState: the state that the server breaks.
    pub current: LeaseState,
    /// NewLeaseState: the state that it is broken to.
    pub new: LeaseState,
}

impl Notification {
    /// How many bytes a notification takes, without the SMB2 header.
    pub const SIZE: usize = 44;

    /// The message as its 44 bytes. Free fields are 0.
    pub fn encode(&self) -> [u8; Notification::SIZE] {
        let mut message = [0u8; Notification::SIZE];
        LittleEndian::write_u16(&mut message[0..], Notification::SIZE as u16);
        LittleEndian::write_u32(&mut message[FLAGS_OFFSET..], u32::from(self.ack_required));
        LittleEndian::write_u32(&mut message[CURRENT_STATE_OFFSET..], self.current.to_wire());
        LittleEndian::write_u32(&mut message[NEW_STATE_OFFSET..], self.new.to_wire());
        message[KEY_OFFSET..KEY_OFFSET + 16].copy_from_slice(&self.key.0);
        message
    }

    /// Reads a notification from the front of `bytes`: the value, and the bytes after its 44. Other
    /// fields that carry no value of the message, and state bits past 7, are passed over.
    ///
    /// # Errors
    ///
    /// `Short` where there are fewer bytes, else `WrongSize` where StructureSize is not 44.
    pub fn decode(bytes: &[u8]) -> Result<(Notification, &[u8]), WireFault> {
        if bytes.len() < Notification::SIZE {
            return Err(WireFault::Short(0));
        }
        let (message, rest) = bytes.split_at(Notification::SIZE);
        if usize::from(LittleEndian::read_u16(message)) != Notification::SIZE {
            return Err(WireFault::WrongSize(0));
        }
        let flags = LittleEndian::read_u32(&message[FLAGS_OFFSET..]);
        let notification = Notification {
            ack_required: flags & ACK_REQUIRED == ACK_REQUIRED,
            key: key_at(message, KEY_OFFSET),
            current: state_at(message, CURRENT_STATE_OFFSET),
            new: state_at(message, NEW_STATE_OFFSET),
        };
        Ok((notification, rest))
    }
}
