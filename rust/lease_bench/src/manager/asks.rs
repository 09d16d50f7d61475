use smblease::proved::lease_manager::{Ask, ClientNo, CreateAsk, FileNo};
use smblease::proved::lease_state::{Access, FileId, LeaseKey, LeaseState, Share};

// Multiples of it are spread over all numbers.
const SPREAD: u64 = 0x9E37_79B9_7F4A_7C15;

/// The key of a number. Keys differ early, as the random ones of clients do.
pub fn key(number: u64) -> LeaseKey {
    let mut bytes = [7; 16];
    bytes[..8].copy_from_slice(&number.wrapping_mul(SPREAD).to_be_bytes());
    LeaseKey(bytes)
}

/// The state of these bits.
pub fn state(bits: u32) -> LeaseState {
    LeaseState::from_wire(bits)
}

/// A create of the file that shares all.
pub fn create(file: FileNo, ask: CreateAsk) -> Ask {
    Ask::Create { file, access: Access::ReadWrite, share: Share::ReadWrite, ask }
}

/// What a create without contexts asks.
pub fn plain() -> CreateAsk {
    CreateAsk { lease: None, durable: false, reconnect: None }
}

/// What a create under a key asks.
pub fn leased(key: LeaseKey, want: LeaseState, durable: bool) -> CreateAsk {
    CreateAsk { lease: Some((key, want)), durable, reconnect: None }
}

/// What a create asks that connects the open of this FileId again.
pub fn again(key: LeaseKey, fid: FileId) -> CreateAsk {
    CreateAsk { lease: Some((key, LeaseState::NONE)), durable: false, reconnect: Some(fid) }
}

/// A client by its number.
pub fn client(number: u64) -> ClientNo {
    ClientNo(number)
}
