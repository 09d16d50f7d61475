// Made by tools/plain_rust from crates/machines_c/src/manager/requests.rt. Changes belong there.

use crate::proved::machines_c::handles::{Outcome, access_of, share_of};
use crate::proved::machines_c::manager::coming::Coming;
use crate::proved::machines_c::manager::handle::ManagerHandle;
use crate::proved::machines_c::manager::values::{AckFields, CreateFields};
use smblease::proved::lease_manager::{Ask, ClientNo, FileNo, Tag};
use smblease::proved::lease_state::{FileId, LeaseKey, LeaseState};
use std::alloc::Global;

/// A client asks to open a file (MS-SMB2 3.3.5.9), or to connect a durable open again (3.3.5.9.7).
/// Where it isn't connected nothing changes.
///
/// Returns 0; 4 where the number of the access or of the share stands for nothing: then nothing
/// changed; 2 where memory ran out, and the manager is lost, which is never where the client isn't
/// connected; 3 where there is none.
pub fn smblease_manager_create(
    alloc: Global,
    manager: &mut ManagerHandle,
    client: u64,
    tag: u64,
    file: u64,
    access: u8,
    share: u8,
    ask: &CreateFields,
) -> u32 {
    let (Some(access), Some(share)) = (access_of(access), share_of(share)) else {
        return Outcome::NoSuch.code();
    };
    let create = Ask::Create { file: FileNo(file), access, share, ask: ask.ask() };
    manager.call(alloc, Coming::Asks(ClientNo(client), Tag(tag), create)).code()
}

/// A client asks to read by an open (3.3.5.12). Where it isn't connected nothing changes.
///
/// Returns 0; 2 where memory ran out, and the manager is lost, which is never where the client
/// isn't connected; 3 where there is none.
pub fn smblease_manager_read(alloc: Global, manager: &mut ManagerHandle, client: u64, tag: u64, file_id: u64) -> u32 {
    let fid = FileId(file_id);
    manager.call(alloc, Coming::Asks(ClientNo(client), Tag(tag), Ask::Read { fid })).code()
}

/// A client asks to write by an open (3.3.5.13), within what the host allows of a file (any number
/// but 0), or past it. The outcomes are those of `smblease_manager_read`.
pub fn smblease_manager_write(alloc: Global, manager: &mut ManagerHandle, client: u64, tag: u64, file_id: u64, fits: u8) -> u32 {
    let write = Ask::Write { fid: FileId(file_id), fits: fits != 0 };
    manager.call(alloc, Coming::Asks(ClientNo(client), Tag(tag), write)).code()
}

/// A client asks to close an open (3.3.5.10). The outcomes are those of `smblease_manager_read`.
pub fn smblease_manager_close(alloc: Global, manager: &mut ManagerHandle, client: u64, tag: u64, file_id: u64) -> u32 {
    let fid = FileId(file_id);
    manager.call(alloc, Coming::Asks(ClientNo(client), Tag(tag), Ask::Close { fid })).code()
}

/// A client acknowledges the break of a lease (3.3.5.22.2). The outcomes are those of
/// `smblease_manager_read`.
pub fn smblease_manager_acknowledge(alloc: Global, manager: &mut ManagerHandle, client: u64, given: &AckFields) -> u32 {
    let (key, state) = (LeaseKey(given.key), LeaseState::from_wire(given.state));
    manager.call(alloc, Coming::Acknowledges(ClientNo(client), key, state)).code()
}

/// A client sends an acknowledgment that can't be read. The outcomes are those of
/// `smblease_manager_read`.
pub fn smblease_manager_acknowledge_malformed(alloc: Global, manager: &mut ManagerHandle, client: u64) -> u32 {
    manager.call(alloc, Coming::IsMalformed(ClientNo(client))).code()
}

/// The functions of this module for C.
pub mod exported {
    use super::{AckFields, CreateFields, ManagerHandle};

    /// [`super::smblease_manager_create`] for C.
    #[unsafe(no_mangle)]
    pub extern "C" fn smblease_manager_create(
        manager: &mut ManagerHandle,
        client: u64,
        tag: u64,
        file: u64,
        access: u8,
        share: u8,
        ask: &CreateFields,
    ) -> u32 {
        super::smblease_manager_create(std::alloc::Global, manager, client, tag, file, access, share, ask)
    }

    /// [`super::smblease_manager_read`] for C.
    #[unsafe(no_mangle)]
    pub extern "C" fn smblease_manager_read(manager: &mut ManagerHandle, client: u64, tag: u64, file_id: u64) -> u32 {
        super::smblease_manager_read(std::alloc::Global, manager, client, tag, file_id)
    }

    /// [`super::smblease_manager_write`] for C.
    #[unsafe(no_mangle)]
    pub extern "C" fn smblease_manager_write(manager: &mut ManagerHandle, client: u64, tag: u64, file_id: u64, fits: u8) -> u32 {
        super::smblease_manager_write(std::alloc::Global, manager, client, tag, file_id, fits)
    }

    /// [`super::smblease_manager_close`] for C.
    #[unsafe(no_mangle)]
    pub extern "C" fn smblease_manager_close(manager: &mut ManagerHandle, client: u64, tag: u64, file_id: u64) -> u32 {
        super::smblease_manager_close(std::alloc::Global, manager, client, tag, file_id)
    }

    /// [`super::smblease_manager_acknowledge`] for C.
    #[unsafe(no_mangle)]
    pub extern "C" fn smblease_manager_acknowledge(manager: &mut ManagerHandle, client: u64, given: &AckFields) -> u32 {
        super::smblease_manager_acknowledge(std::alloc::Global, manager, client, given)
    }

    /// [`super::smblease_manager_acknowledge_malformed`] for C.
    #[unsafe(no_mangle)]
    pub extern "C" fn smblease_manager_acknowledge_malformed(manager: &mut ManagerHandle, client: u64) -> u32 {
        super::smblease_manager_acknowledge_malformed(std::alloc::Global, manager, client)
    }
}
