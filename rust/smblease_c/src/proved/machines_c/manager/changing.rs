// Made by tools/plain_rust from crates/machines_c/src/manager/changing.rt. Changes belong there.

use crate::proved::machines_c::handles::{Outcome, extent_of};
use crate::proved::machines_c::manager::coming::Coming;
use crate::proved::machines_c::manager::handle::ManagerHandle;
use crate::proved::machines_c::values::MaybeKey;
use smblease::proved::lease_manager::{ClientNo, Extent, FileNo, Tag};
use smblease::proved::waiting_changes::Change;
use std::alloc::Global;

/// A change that waits: `struct smblease_change`.
#[repr(C)]
#[derive(Clone, Copy, Debug, PartialEq, Eq)]
pub struct ChangeFields {
    /// The number of the file.
    pub file: u64,
    /// The number of the client that asked for it.
    pub client: u64,
    /// The tag under which it did.
    pub tag: u64,
    /// The key that gives up nothing, where `has_key` is set.
    pub key: [u8; 16],
    /// What other keys are to give up: 1 handles, 2 all.
    pub extent: u32,
    /// There is such a key.
    pub has_key: u8,
    /// Room for later versions: 0.
    pub reserved: [u8; 11],
}

impl ChangeFields {
    // The fields that hold a change.
    fn holding(one: &Change) -> ChangeFields {
        let mut fields = ChangeFields {
            file: one.file.0,
            client: one.client.0,
            tag: one.tag.0,
            key: [0; 16],
            extent: number_of(one.extent),
            has_key: 0,
            reserved: [0; 11],
        };
        if let Some(key) = one.key {
            let bytes = key.0;
            fields.key = bytes;
            fields.has_key = 1;
        }
        fields
    }
}

// The number of an extent.
fn number_of(extent: Extent) -> u32 {
    match extent {
        Extent::Handles => 1,
        Extent::All => 2,
    }
}

/// A change of a file that no open of a client asks for (own): other keys on it than this one of the client's give up handles
/// (1), or all that they cache (2); with no key each gives up. The change goes on at once, or waits and goes on once nothing
/// is in its way, under the tag.
///
/// Returns 0; 4 where the extent stands for nothing: then nothing changed; 2 where memory ran out, and the manager is lost; 3
/// where there is none.
pub fn smblease_manager_change(
    alloc: Global,
    manager: &mut ManagerHandle,
    client: u64,
    tag: u64,
    key: &MaybeKey,
    file: u64,
    extent: u32,
) -> u32 {
    match extent_of(extent) {
        Some(extent) => {
            let change = Change { client: ClientNo(client), tag: Tag(tag), key: key.key(), file: FileNo(file), extent };
            manager.call(alloc, Coming::Changes(change)).code()
        }
        None => Outcome::NoSuch.code(),
    }
}

/// The change that waits at this index, from 0, in order of arrival.
///
/// Returns 0; 3 where there is no manager; 4 where none has the index. Then nothing is written.
pub fn smblease_manager_change_at(alloc: Global, manager: &mut ManagerHandle, index: usize, out: &mut ChangeFields) -> u32 {
    match manager.take(alloc) {
        None => Outcome::Nothing.code(),
        Some(managing) => {
            let outcome = tell(managing.changes.as_slice(), index, out);
            manager.put(alloc, managing);
            outcome.code()
        }
    }
}

// Writes the change at the index into `out`.
fn tell(changes: &[Change], index: usize, out: &mut ChangeFields) -> Outcome {
    match changes.get(index) {
        Some(one) => {
            *out = ChangeFields::holding(one);
            Outcome::Done
        }
        None => Outcome::NoSuch,
    }
}

/// The functions of this module for C.
pub mod exported {
    use super::{ChangeFields, ManagerHandle, MaybeKey};

    /// [`super::smblease_manager_change`] for C.
    #[unsafe(no_mangle)]
    pub extern "C" fn smblease_manager_change(
        manager: &mut ManagerHandle,
        client: u64,
        tag: u64,
        key: &MaybeKey,
        file: u64,
        extent: u32,
    ) -> u32 {
        super::smblease_manager_change(std::alloc::Global, manager, client, tag, key, file, extent)
    }

    /// [`super::smblease_manager_change_at`] for C.
    #[unsafe(no_mangle)]
    pub extern "C" fn smblease_manager_change_at(manager: &mut ManagerHandle, index: usize, out: &mut ChangeFields) -> u32 {
        super::smblease_manager_change_at(std::alloc::Global, manager, index, out)
    }
}
