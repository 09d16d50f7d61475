// Made by tools/plain_rust from crates/lease_wire_v2/src/durable.rt. Changes belong there.

use crate::proved::capture_wire::{DurableReconnectV2, DurableRequestV2, DurableResponseV2, Smb2FileId};
use byteorder::{ByteOrder, LittleEndian};

// SMB2_DHANDLE_FLAG_PERSISTENT
const PERSISTENT: u32 = 2;

fn flags(persistent: bool) -> u32 {
    if persistent { PERSISTENT } else { 0 }
}

/// SMB2_FILEID (MS-SMB2 2.2.14.1): Persistent, then Volatile.
pub(crate) fn file_id_bytes(file_id: Smb2FileId) -> [u8; 16] {
    let mut bytes = [0u8; 16];
    LittleEndian::write_u64(&mut bytes[0..], file_id.persistent);
    LittleEndian::write_u64(&mut bytes[8..], file_id.volatile);
    bytes
}

/// The data of a `DH2Q` context of a request (MS-SMB2 2.2.13.2.11), as their 32 bytes. Reserved is 0.
/// `capture_wire::read_durable_request_v2` reads the value back.
pub fn encode_durable_request_v2(durable: &DurableRequestV2) -> [u8; 32] {
    let DurableRequestV2 { timeout, persistent, create_guid } = *durable;
    let mut bytes = [0u8; 32];
    LittleEndian::write_u32(&mut bytes[0..], timeout);
    LittleEndian::write_u32(&mut bytes[4..], flags(persistent));
    bytes[16..].copy_from_slice(&create_guid.0);
    bytes
}

/// The data of a `DH2Q` context of a response (MS-SMB2 2.2.14.2.12), as their 8 bytes.
/// `capture_wire::read_durable_response_v2` reads the value back.
pub fn encode_durable_response_v2(durable: &DurableResponseV2) -> [u8; 8] {
    let DurableResponseV2 { timeout, persistent } = *durable;
    let mut bytes = [0u8; 8];
    LittleEndian::write_u32(&mut bytes[0..], timeout);
    LittleEndian::write_u32(&mut bytes[4..], flags(persistent));
    bytes
}

/// The data of a `DH2C` context (MS-SMB2 2.2.13.2.12), as their 36 bytes. `capture_wire::read_durable_reconnect_v2` reads the
/// value back.
pub fn encode_durable_reconnect_v2(reconnect: &DurableReconnectV2) -> [u8; 36] {
    let DurableReconnectV2 { file_id, create_guid, persistent } = *reconnect;
    let mut bytes = [0u8; 36];
    LittleEndian::write_u32(&mut bytes[32..], flags(persistent));
    bytes[..16].copy_from_slice(&file_id_bytes(file_id));
    bytes[16..32].copy_from_slice(&create_guid.0);
    bytes
}
