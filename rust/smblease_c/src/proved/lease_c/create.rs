// Made by tools/plain_rust from crates/lease_c/src/create.rt. Changes belong there.

use crate::proved::lease_c::fault::LeaseFault;
use smblease::proved::lease_state::{FileId, LeaseKey, LeaseState};
use smblease::proved::lease_wire::{
    Context, CreateAnswer, CreateAsk, WireFault, contexts, fill_create_ask, fill_create_reply, read_create, read_create_reply,
};

/// What the create contexts of a CREATE request ask for: `struct smblease_create_ask`.
#[repr(C)]
#[derive(Clone, Copy, Debug, PartialEq, Eq)]
pub struct LeaseCreateAsk {
    /// The lease key, where `has_lease` is set.
    pub key: [u8; 16],
    /// The durable open that is to be connected again, where `has_reconnect` is set.
    pub file_id: u64,
    /// The state that is wanted, where `has_lease` is set: the bits of LeaseState.
    pub state: u32,
    /// `RqLs`: a lease is asked for.
    pub has_lease: u8,
    /// `DHnQ`: a durable open is asked for.
    pub durable: u8,
    /// `DHnC`: a durable open is to be connected again.
    pub has_reconnect: u8,
    /// `RqLs` of 52 bytes, the lease context of version 2 (2.2.13.2.10): it is there, and is passed
    /// over. A writer passes over this field.
    pub has_other_lease: u8,
    /// Left 0, for what later versions may read.
    pub reserved: [u64; 6],
}

/// What the create contexts of a CREATE response grant: `struct smblease_create_answer`.
#[repr(C)]
#[derive(Clone, Copy, Debug, PartialEq, Eq)]
pub struct LeaseCreateAnswer {
    /// The lease key, where `has_lease` is set.
    pub key: [u8; 16],
    /// The state that the lease has, where `has_lease` is set: the bits of LeaseState.
    pub state: u32,
    /// `RqLs`: a lease is granted.
    pub has_lease: u8,
    /// A break of the lease is in progress.
    pub breaking: u8,
    /// `DHnQ`: the open is durable.
    pub durable: u8,
    /// `RqLs` of 52 bytes, the lease context of version 2 (2.2.14.2.11), as in [`LeaseCreateAsk`].
    pub has_other_lease: u8,
    /// Left 0, for what later versions may read.
    pub reserved: [u64; 6],
}

impl LeaseCreateAsk {
    // The value that the fields hold.
    fn value(&self) -> CreateAsk {
        CreateAsk {
            lease: if self.has_lease != 0 { Some((LeaseKey(self.key), LeaseState::from_wire(self.state))) } else { None },
            durable: self.durable != 0,
            reconnect: if self.has_reconnect != 0 { Some(FileId(self.file_id)) } else { None },
        }
    }

    // The fields that hold a value: those of what isn't there are 0.
    fn holding(ask: &CreateAsk, other_lease: bool) -> LeaseCreateAsk {
        let (key, state) = match ask.lease {
            Some((key, state)) => {
                let bytes = key.0;
                (bytes, state.to_wire())
            }
            None => ([0; 16], 0),
        };
        let file_id = match ask.reconnect {
            Some(file_id) => file_id.0,
            None => 0,
        };
        LeaseCreateAsk {
            key,
            file_id,
            state,
            has_lease: u8::from(ask.lease.is_some()),
            durable: u8::from(ask.durable),
            has_reconnect: u8::from(ask.reconnect.is_some()),
            has_other_lease: u8::from(other_lease),
            reserved: [0; 6],
        }
    }
}

impl LeaseCreateAnswer {
    // The value that the fields hold.
    fn value(&self) -> CreateAnswer {
        CreateAnswer {
            lease: if self.has_lease != 0 {
                Some((LeaseKey(self.key), LeaseState::from_wire(self.state), self.breaking != 0))
            } else {
                None
            },
            durable: self.durable != 0,
        }
    }

    // The fields that hold a value: those of what isn't there are 0.
    fn holding(answer: &CreateAnswer, other_lease: bool) -> LeaseCreateAnswer {
        let (key, state, breaking) = match answer.lease {
            Some((key, state, breaking)) => {
                let bytes = key.0;
                (bytes, state.to_wire(), breaking)
            }
            None => ([0; 16], 0, false),
        };
        LeaseCreateAnswer {
            key,
            state,
            has_lease: u8::from(answer.lease.is_some()),
            breaking: u8::from(breaking),
            durable: u8::from(answer.durable),
            has_other_lease: u8::from(other_lease),
            reserved: [0; 6],
        }
    }
}

// Whether one of the contexts is a lease context of version 2.
fn has_other_lease(text: &[u8]) -> bool {
    for item in contexts(text) {
        if is_other_lease(&item) {
            return true;
        }
    }
    false
}

fn is_other_lease(item: &Result<Context<'_>, WireFault>) -> bool {
    match item {
        Ok(context) => context.name == b"RqLs".as_slice() && context.body.len() == 52,
        Err(_) => false,
    }
}

/// Reads the create contexts of a CREATE request (MS-SMB2 2.2.13.2) into `out`. A text of no bytes
/// asks for nothing; contexts that aren't known are passed over, also an `RqLs` of 52 bytes, which
/// `has_other_lease` reports.
///
/// Returns the first fault in the order of the text, and then `out` is as it was.
pub fn smblease_read_create_ask(text: &[u8], out: &mut LeaseCreateAsk) -> LeaseFault {
    match read_create(text) {
        Ok(ask) => {
            *out = LeaseCreateAsk::holding(&ask, has_other_lease(text));
            LeaseFault::none()
        }
        Err(fault) => LeaseFault::of(fault),
    }
}

/// Reads the create contexts of a CREATE response (MS-SMB2 2.2.14.2) into `out`, as
/// [`smblease_read_create_ask`] those of a request. A `DHnC` is not known there.
pub fn smblease_read_create_answer(text: &[u8], out: &mut LeaseCreateAnswer) -> LeaseFault {
    match read_create_reply(text) {
        Ok(answer) => {
            *out = LeaseCreateAnswer::holding(&answer, has_other_lease(text));
            LeaseFault::none()
        }
        Err(fault) => LeaseFault::of(fault),
    }
}

/// Writes the create contexts of a request (MS-SMB2 2.2.13.2) in their canonical text to the front
/// of `room`. Returns the length of the text, 136 bytes at most; where `room` is shorter, nothing
/// is written.
pub fn smblease_write_create_ask(ask: &LeaseCreateAsk, room: &mut [u8]) -> usize {
    fill_create_ask(&ask.value(), room)
}

/// Writes the create contexts of a response (MS-SMB2 2.2.14.2), as [`smblease_write_create_ask`] those
/// of a request: 88 bytes at most.
pub fn smblease_write_create_answer(answer: &LeaseCreateAnswer, room: &mut [u8]) -> usize {
    fill_create_reply(&answer.value(), room)
}

/// The functions of this module for C.
pub mod exported {
    use super::{LeaseCreateAnswer, LeaseCreateAsk, LeaseFault};

    /// [`super::smblease_read_create_ask`] for C.
    ///
    /// # Safety
    ///
    /// There are as many items at each pointer as the length after it says; nobody writes them meanwhile, nor reads them where
    /// they are written. A pointer is null only where the length is 0.
    #[unsafe(no_mangle)]
    pub unsafe extern "C" fn smblease_read_create_ask(
        text: *const u8,
        text_length: usize,
        out: &mut LeaseCreateAsk,
    ) -> LeaseFault {
        // SAFETY: the caller's word.
        super::smblease_read_create_ask(unsafe { std::c::slice(text, text_length) }, out)
    }

    /// [`super::smblease_read_create_answer`] for C.
    ///
    /// # Safety
    ///
    /// There are as many items at each pointer as the length after it says; nobody writes them meanwhile, nor reads them where
    /// they are written. A pointer is null only where the length is 0.
    #[unsafe(no_mangle)]
    pub unsafe extern "C" fn smblease_read_create_answer(
        text: *const u8,
        text_length: usize,
        out: &mut LeaseCreateAnswer,
    ) -> LeaseFault {
        // SAFETY: the caller's word.
        super::smblease_read_create_answer(unsafe { std::c::slice(text, text_length) }, out)
    }

    /// [`super::smblease_write_create_ask`] for C.
    ///
    /// # Safety
    ///
    /// There are as many items at each pointer as the length after it says; nobody writes them meanwhile, nor reads them where
    /// they are written. A pointer is null only where the length is 0.
    #[unsafe(no_mangle)]
    pub unsafe extern "C" fn smblease_write_create_ask(ask: &LeaseCreateAsk, room: *mut u8, room_length: usize) -> usize {
        // SAFETY: the caller's word.
        super::smblease_write_create_ask(ask, unsafe { std::c::slice_mut(room, room_length) })
    }

    /// [`super::smblease_write_create_answer`] for C.
    ///
    /// # Safety
    ///
    /// There are as many items at each pointer as the length after it says; nobody writes them meanwhile, nor reads them where
    /// they are written. A pointer is null only where the length is 0.
    #[unsafe(no_mangle)]
    pub unsafe extern "C" fn smblease_write_create_answer(
        answer: &LeaseCreateAnswer,
        room: *mut u8,
        room_length: usize,
    ) -> usize {
        // SAFETY: the caller's word.
        super::smblease_write_create_answer(answer, unsafe { std::c::slice_mut(room, room_length) })
    }
}
