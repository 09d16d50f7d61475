// Made by tools/plain_rust from crates/kept_opens/src/entry.rt. Changes belong there.

use crate::proved::lease_manager::{ClientNo, FileNo, KeptOpen};
use crate::proved::lease_state::{Access, FileId, LeaseKey, LeaseState, Share};
use byteorder::{ByteOrder, LittleEndian};

/// How many bytes an open takes.
pub(crate) const ENTRY_SIZE: usize = 48;

// Where the fields stand.
const CLIENT_OFFSET: usize = 8;

const FILE_OFFSET: usize = 16;

const KEY_OFFSET: usize = 24;

const ACCESS_OFFSET: usize = 40;

const SHARE_OFFSET: usize = 41;

const STATE_OFFSET: usize = 42;

const RESERVED_OFFSET: usize = 43;

/// The bytes of an open.
pub(crate) fn entry_bytes(one: KeptOpen) -> [u8; ENTRY_SIZE] {
    let mut bytes = [0u8; ENTRY_SIZE];
    LittleEndian::write_u64(&mut bytes[0..], one.file_id.0);
    LittleEndian::write_u64(&mut bytes[CLIENT_OFFSET..], one.client.0);
    LittleEndian::write_u64(&mut bytes[FILE_OFFSET..], one.file.0);
    bytes[ACCESS_OFFSET] = one.access.bits();
    bytes[SHARE_OFFSET] = one.share.bits();
    bytes[STATE_OFFSET] = one.state.to_wire() as u8;
    bytes[KEY_OFFSET..KEY_OFFSET + 16].copy_from_slice(&one.key.0);
    bytes
}

/// The number in the eight bytes at a place.
pub(crate) fn number_at(bytes: &[u8], place: usize) -> u64 {
    LittleEndian::read_u64(&bytes[place..])
}

fn access_of(byte: u8) -> Option<Access> {
    match byte {
        1 => Some(Access::Read),
        2 => Some(Access::Write),
        3 => Some(Access::ReadWrite),
        _ => None,
    }
}

fn share_of(byte: u8) -> Option<Share> {
    match byte {
        0 => Some(Share::Nothing),
        1 => Some(Share::Read),
        2 => Some(Share::Write),
        3 => Some(Share::ReadWrite),
        _ => None,
    }
}

fn state_of(byte: u8) -> Option<LeaseState> {
    if byte < 8 { Some(LeaseState::from_wire(u32::from(byte))) } else { None }
}

fn are_reserved(bytes: &[u8]) -> bool {
    bytes == [0u8; 5].as_slice()
}

// The access, the share and the state of an open, where its bytes have them and zeros after them.
fn rights_of(bytes: &[u8]) -> Option<(Access, Share, LeaseState)> {
    if !are_reserved(&bytes[RESERVED_OFFSET..]) {
        return None;
    }
    let access = access_of(bytes[ACCESS_OFFSET])?;
    let share = share_of(bytes[SHARE_OFFSET])?;
    let state = state_of(bytes[STATE_OFFSET])?;
    Some((access, share, state))
}

// The key at its place.
fn key_of(bytes: &[u8]) -> LeaseKey {
    let mut key = [0u8; 16];
    key.copy_from_slice(&bytes[KEY_OFFSET..KEY_OFFSET + 16]);
    LeaseKey(key)
}

/// The open that 48 bytes hold, if they hold one.
pub(crate) fn entry_of(bytes: &[u8]) -> Option<KeptOpen> {
    match rights_of(bytes) {
        Some((access, share, state)) => Some(KeptOpen {
            file_id: FileId(number_at(bytes, 0)),
            client: ClientNo(number_at(bytes, CLIENT_OFFSET)),
            file: FileNo(number_at(bytes, FILE_OFFSET)),
            key: key_of(bytes),
            access,
            share,
            state,
        }),
        None => None,
    }
}
