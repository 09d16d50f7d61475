// Made by tools/plain_rust from crates/machines_c/src/manager/listing.rt. Changes belong there.

use crate::proved::machines_c::handles::Outcome;
use crate::proved::machines_c::manager::handle::ManagerHandle;
use crate::proved::machines_c::manager::listed::Listing;
use smblease::proved::lease_manager::ListedOpen;
use std::alloc::Global;

/// An open: `struct smblease_listed_open`.
#[repr(C)]
#[derive(Clone, Copy, Debug, PartialEq, Eq)]
pub struct OpenFields {
    /// Its FileId.
    pub file_id: u64,
    /// The number of its client.
    pub client: u64,
    /// The number of its file.
    pub file: u64,
    /// Its lease key, where `has_key` is set.
    pub key: [u8; 16],
    /// It was asked for with a lease key.
    pub has_key: u8,
    /// What it may do.
    pub access: u8,
    /// What it lets others do.
    pub share: u8,
    /// It is durable.
    pub durable: u8,
    /// Its client is connected.
    pub connected: u8,
    /// Room for later versions: 0.
    pub reserved: [u8; 27],
}

impl OpenFields {
    // The fields that hold an open.
    fn holding(one: &ListedOpen) -> OpenFields {
        let key = match one.lease_key {
            Some(key) => key.0,
            None => [0; 16],
        };
        OpenFields {
            file_id: one.file_id.0,
            client: one.client.0,
            file: one.file.0,
            key,
            has_key: u8::from(one.lease_key.is_some()),
            access: one.access.bits(),
            share: one.share.bits(),
            durable: u8::from(one.durable),
            connected: u8::from(one.connected),
            reserved: [0; 27],
        }
    }
}

/// Lists all opens as they stand, in the order of their FileIds. What the last call decided stays.
///
/// Returns 0; 1 where there is no memory for the list, and nothing changed; 3 where there is no
/// manager.
pub fn smblease_manager_list_opens(alloc: Global, manager: &mut ManagerHandle) -> u32 {
    manager.list(alloc, Listing::Opens).code()
}

// Writes the open at the index into `out`.
fn tell(opens: &[ListedOpen], index: usize, out: &mut OpenFields) -> Outcome {
    match opens.get(index) {
        Some(one) => {
            *out = OpenFields::holding(one);
            Outcome::Done
        }
        None => Outcome::NoSuch,
    }
}

/// The open that was listed at this index, from 0.
///
/// Returns 0; 3 where there is no manager; 4 where nothing has the index, or a call of the manager
/// came since the opens were listed. Then nothing is written.
pub fn smblease_manager_listed_at(alloc: Global, manager: &mut ManagerHandle, index: usize, out: &mut OpenFields) -> u32 {
    match manager.take(alloc) {
        None => Outcome::Nothing.code(),
        Some(managing) => {
            let outcome = tell(managing.listed.opens.as_slice(), index, out);
            manager.put(alloc, managing);
            outcome.code()
        }
    }
}

/// The functions of this module for C.
pub mod exported {
    use super::{ManagerHandle, OpenFields};

    /// [`super::smblease_manager_list_opens`] for C.
    #[unsafe(no_mangle)]
    pub extern "C" fn smblease_manager_list_opens(manager: &mut ManagerHandle) -> u32 {
        super::smblease_manager_list_opens(std::alloc::Global, manager)
    }

    /// [`super::smblease_manager_listed_at`] for C.
    #[unsafe(no_mangle)]
    pub extern "C" fn smblease_manager_listed_at(manager: &mut ManagerHandle, index: usize, out: &mut OpenFields) -> u32 {
        super::smblease_manager_listed_at(std::alloc::Global, manager, index, out)
    }
}
