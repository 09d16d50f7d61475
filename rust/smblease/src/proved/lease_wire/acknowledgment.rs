// Made by tools/plain_rust from crates/lease_wire/src/acknowledgment.rt. Changes belong there.

use crate::proved::lease_state::{LeaseKey, LeaseState};
use crate::proved::lease_wire::fault::WireFault;
use crate::proved::lease_wire::field::{key_at, state_at};
use crate::proved::lease_wire::notification::Notification;
use byteorder::{ByteOrder, LittleEndian};

// The layout that an acknowledgment and a response share, without the SMB2 header.
const SIZE: usize = 36;

const KEY_OFFSET: usize = 8;

const STATE_OFFSET: usize = 24;

/// A lease break acknowledgment (MS-SMB2 2.2.24.2), by which a client gives up what a break takes.
#[derive(Clone, Copy, Debug, PartialEq, Eq)]
pub struct Acknowledgment {
    pub key: LeaseKey,
    /// LeaseState: the state that the client keeps.
    pub state: LeaseState,
}

impl Acknowledgment {
    /// The acknowledgment that a break asks for (MS-SMB2 3.2.5.19.2): of the notification's key,
    /// with the state that the lease is broken to. None where ACK_REQUIRED is not set.
    pub fn due(notification: &Notification) -> Option<Acknowledgment> {
        if !notification.ack_required {
            return None;
        }
        Some(Acknowledgment { key: notification.key, state: notification.new })
    }

    /// How many bytes an acknowledgment takes, without the SMB2 header.
    pub const SIZE: usize = SIZE;

    /// The message as its 36 bytes. Free fields are 0.
    pub fn encode(&self) -> [u8; Acknowledgment::SIZE] {
        encode_key_and_state(self.key, self.state)
    }

    /// Reads an acknowledgment from the front of `bytes`: the value, and the bytes after its 36.
    /// Other fields, and state bits past 7, are passed over.
    ///
    /// # Errors
    ///
    /// `Short` where there are fewer bytes, else `WrongSize` where StructureSize is not 36.
    pub fn decode(bytes: &[u8]) -> Result<(Acknowledgment, &[u8]), WireFault> {
        let (key, state, rest) = decode_key_and_state(bytes)?;
        Ok((Acknowledgment { key, state }, rest))
    }
}

/// A lease break response (MS-SMB2 2.2.25.2), by which the server accepts an acknowledgment.
#[derive(Clone, Copy, Debug, PartialEq, Eq)]
pub struct BreakResponse {
    pub key: LeaseKey,
    /// LeaseState: the state that the lease now has.
    pub state: LeaseState,
}

impl BreakResponse {
    /// How many bytes a response takes, without the SMB2 header.
    pub const SIZE: usize = SIZE;

    /// The message as its 36 bytes. Free fields are 0.
    pub fn encode(&self) -> [u8; BreakResponse::SIZE] {
        encode_key_and_state(self.key, self.state)
    }

    /// Reads a response from the front of `bytes`: the value, and the bytes after its 36. Other
    /// fields, and state bits past 7, are passed over.
    ///
    /// # Errors
    ///
    /// `Short` where there are fewer bytes, else `WrongSize` where StructureSize is not 36.
    pub fn decode(bytes: &[u8]) -> Result<(BreakResponse, &[u8]), WireFault> {
        let (key, state, rest) = decode_key_and_state(bytes)?;
        Ok((BreakResponse { key, state }, rest))
    }
}

// The 36 bytes of a key with its state. Free fields are 0.
fn encode_key_and_state(key: LeaseKey, state: LeaseState) -> [u8; SIZE] {
    let mut message = [0u8; SIZE];
    LittleEndian::write_u16(&mut message[0..], SIZE as u16);
    LittleEndian::write_u32(&mut message[STATE_OFFSET..], state.to_wire());
    message[KEY_OFFSET..KEY_OFFSET + 16].copy_from_slice(&key.0);
    message
}

// A key with its state, from the front of the bytes, and the bytes after its 36.
fn decode_key_and_state(bytes: &[u8]) -> Result<(LeaseKey, LeaseState, &[u8]), WireFault> {
    if bytes.len() < SIZE {
        return Err(WireFault::Short(0));
    }
    let (message, rest) = bytes.split_at(SIZE);
    if usize::from(LittleEndian::read_u16(message)) != SIZE {
        return Err(WireFault::WrongSize(0));
    }
    let key = key_at(message, KEY_OFFSET);
    Ok((key, state_at(message, STATE_OFFSET), rest))
}
