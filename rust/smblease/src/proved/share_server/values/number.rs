// Made by tools/plain_rust from crates/share_server/src/values/number.rt. Changes belong there.

use crate::proved::lease_state::{ClientNo, FileNo};

/// The client's number, as the manager has it.
pub fn client_no(client: ClientNo) -> crate::proved::lease_manager::ClientNo {
    crate::proved::lease_manager::ClientNo(u64::from(client.0))
}

/// The file's number, as the manager has it.
pub fn file_no(file: FileNo) -> crate::proved::lease_manager::FileNo {
    crate::proved::lease_manager::FileNo(u64::from(file.0))
}
