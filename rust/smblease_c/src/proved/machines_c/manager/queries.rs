// Made by tools/plain_rust from crates/machines_c/src/manager/queries.rt. Changes belong there.

use crate::proved::machines_c::manager::handle::ManagerHandle;
use crate::proved::machines_c::values::KeyBytes;
use smblease::proved::lease_manager::{ClientNo, FileNo, Tag};
use smblease::proved::lease_state::{FileId, LeaseKey};
use std::alloc::Global;

/// 1 where the client is connected (MS-SMB2 3.3.1.7, ConnectionList), and else 0.
pub fn smblease_manager_connected(alloc: Global, manager: &mut ManagerHandle, client: u64) -> u32 {
    match manager.take(alloc) {
        None => 0,
        Some(managing) => {
            let is_connected = managing.manager.is_connected(ClientNo(client));
            manager.put(alloc, managing);
            u32::from(is_connected)
        }
    }
}

/// 1 where a break of the client's lease of this key waits for its acknowledgment (3.3.1.12,
/// Breaking), and else 0.
pub fn smblease_manager_breaking(alloc: Global, manager: &mut ManagerHandle, client: u64, key: &KeyBytes) -> u32 {
    match manager.take(alloc) {
        None => 0,
        Some(managing) => {
            let key = LeaseKey(key.bytes);
            let is_breaking = managing.manager.is_breaking(ClientNo(client), key);
            manager.put(alloc, managing);
            u32::from(is_breaking)
        }
    }
}

/// 1 where a request or a change of the client waits on the file under the tag, and else 0.
pub fn smblease_manager_waiting(alloc: Global, manager: &mut ManagerHandle, client: u64, tag: u64, file: u64) -> u32 {
    match manager.take(alloc) {
        None => 0,
        Some(managing) => {
            let (file, client, tag) = (FileNo(file), ClientNo(client), Tag(tag));
            let is_waiting = managing.manager.is_waiting(file, client, tag) || managing.changes.is_waiting(file, client, tag);
            manager.put(alloc, managing);
            u32::from(is_waiting)
        }
    }
}

/// 1 where an open of this FileId waits for its client to connect again (3.3.1.10, IsDurable), and
/// else 0.
pub fn smblease_manager_left_behind(alloc: Global, manager: &mut ManagerHandle, file_id: u64) -> u32 {
    match manager.take(alloc) {
        None => 0,
        Some(managing) => {
            let is_left = managing.manager.has_left_behind(FileId(file_id));
            manager.put(alloc, managing);
            u32::from(is_left)
        }
    }
}

/// 1 where there is an open of this FileId, connected or not, and else 0.
pub fn smblease_manager_has_open(alloc: Global, manager: &mut ManagerHandle, file_id: u64) -> u32 {
    match manager.take(alloc) {
        None => 0,
        Some(managing) => {
            let has_open = managing.manager.has_open(FileId(file_id));
            manager.put(alloc, managing);
            u32::from(has_open)
        }
    }
}

/// How many opens there are, those that wait for their clients too; 0 where there is no manager.
pub fn smblease_manager_open_count(alloc: Global, manager: &mut ManagerHandle) -> usize {
    match manager.take(alloc) {
        None => 0,
        Some(managing) => {
            let count = managing.manager.open_count();
            manager.put(alloc, managing);
            count
        }
    }
}

/// 1 where a read by this FileId of the client would be done at once (3.3.5.12): its open is connected and may read, and no
/// earlier request goes first. Else 0.
pub fn smblease_manager_may_read(alloc: Global, manager: &mut ManagerHandle, client: u64, file_id: u64) -> u32 {
    match manager.take(alloc) {
        None => 0,
        Some(managing) => {
            let may_read = managing.manager.may_read(FileId(file_id), ClientNo(client));
            manager.put(alloc, managing);
            u32::from(may_read)
        }
    }
}

/// 1 where a write by this FileId of the client that ends within what its host allows of a file would be done at once (3.3.5.13):
/// its open is connected and may write, no lease of another key has to be broken, and no earlier request goes first. Else 0.
pub fn smblease_manager_may_write(alloc: Global, manager: &mut ManagerHandle, client: u64, file_id: u64) -> u32 {
    match manager.take(alloc) {
        None => 0,
        Some(managing) => {
            let may_write = managing.manager.may_write(FileId(file_id), ClientNo(client));
            manager.put(alloc, managing);
            u32::from(may_write)
        }
    }
}

/// The functions of this module for C.
pub mod exported {
    use super::{KeyBytes, ManagerHandle};

    /// [`super::smblease_manager_connected`] for C.
    #[unsafe(no_mangle)]
    pub extern "C" fn smblease_manager_connected(manager: &mut ManagerHandle, client: u64) -> u32 {
        super::smblease_manager_connected(std::alloc::Global, manager, client)
    }

    /// [`super::smblease_manager_breaking`] for C.
    #[unsafe(no_mangle)]
    pub extern "C" fn smblease_manager_breaking(manager: &mut ManagerHandle, client: u64, key: &KeyBytes) -> u32 {
        super::smblease_manager_breaking(std::alloc::Global, manager, client, key)
    }

    /// [`super::smblease_manager_waiting`] for C.
    #[unsafe(no_mangle)]
    pub extern "C" fn smblease_manager_waiting(manager: &mut ManagerHandle, client: u64, tag: u64, file: u64) -> u32 {
        super::smblease_manager_waiting(std::alloc::Global, manager, client, tag, file)
    }

    /// [`super::smblease_manager_left_behind`] for C.
    #[unsafe(no_mangle)]
    pub extern "C" fn smblease_manager_left_behind(manager: &mut ManagerHandle, file_id: u64) -> u32 {
        super::smblease_manager_left_behind(std::alloc::Global, manager, file_id)
    }

    /// [`super::smblease_manager_has_open`] for C.
    #[unsafe(no_mangle)]
    pub extern "C" fn smblease_manager_has_open(manager: &mut ManagerHandle, file_id: u64) -> u32 {
        super::smblease_manager_has_open(std::alloc::Global, manager, file_id)
    }

    /// [`super::smblease_manager_open_count`] for C.
    #[unsafe(no_mangle)]
    pub extern "C" fn smblease_manager_open_count(manager: &mut ManagerHandle) -> usize {
        super::smblease_manager_open_count(std::alloc::Global, manager)
    }

    /// [`super::smblease_manager_may_read`] for C.
    #[unsafe(no_mangle)]
    pub extern "C" fn smblease_manager_may_read(manager: &mut ManagerHandle, client: u64, file_id: u64) -> u32 {
        super::smblease_manager_may_read(std::alloc::Global, manager, client, file_id)
    }

    /// [`super::smblease_manager_may_write`] for C.
    #[unsafe(no_mangle)]
    pub extern "C" fn smblease_manager_may_write(manager: &mut ManagerHandle, client: u64, file_id: u64) -> u32 {
        super::smblease_manager_may_write(std::alloc::Global, manager, client, file_id)
    }
}
