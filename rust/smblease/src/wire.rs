//! The bytes of create contexts and of break messages (MS-SMB2 2.2.13.2, 2.2.14.2, 2.2.23 to 2.2.25). Reading allocates nothing.
//!
//! ```
//! use smblease::wire::{Acknowledgment, Notification};
//! use smblease::{LeaseKey, LeaseState};
//!
//! let lowered = Notification {
//!     ack_required: true,
//!     key: LeaseKey([7; 16]),
//!     current: LeaseState::from_wire(7),
//!     new: LeaseState::from_wire(3),
//! };
//! let (read, behind) = Notification::decode(&lowered.encode()).map(|(read, behind)| (read, behind.len()))?;
//! assert_eq!((read, behind), (lowered, 0));
//! assert_eq!(Acknowledgment::due(&read).map(|due| due.encode().len()), Some(36));
//! # Ok::<(), smblease::wire::WireFault>(())
//! ```

use crate::OutOfMemory;
use crate::proved::lease_wire as proved;
use alloc::vec::Vec;
use std::alloc::Global;
use std::prelude::Vec as Fallible;

pub use crate::proved::lease_wire::{
    Acknowledgment, BreakResponse, Context, Contexts, CreateAnswer, CreateAsk, Direction, HEADER_SIZE, Lease, Notification,
    WireFault, begins_message, contexts, contexts_of_create, fill_create_ask, fill_create_reply, first_message, read_context_at,
    read_create, read_create_reply,
};

/// The create contexts of a request.
///
/// # Errors
///
/// Where there is no memory for them.
pub fn create_ask(ask: &CreateAsk) -> Result<Vec<u8>, OutOfMemory> {
    let mut bytes = Fallible::new(Global);
    proved::write_create_ask(ask, &mut bytes)?;
    Ok(bytes.into_inner())
}

/// The create contexts of an answer.
///
/// # Errors
///
/// Where there is no memory for them.
pub fn create_reply(answer: &CreateAnswer) -> Result<Vec<u8>, OutOfMemory> {
    let mut bytes = Fallible::new(Global);
    proved::write_create_reply(answer, &mut bytes)?;
    Ok(bytes.into_inner())
}
