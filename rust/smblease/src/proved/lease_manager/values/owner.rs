// Made by tools/plain_rust from crates/lease_manager/src/values/owner.rt. Changes belong there.

use crate::proved::lease_manager::values::number::{ClientNo, FileNo};

/// Whose opens wait, and on which file.
#[derive(Clone, Copy, Debug, PartialEq, Eq, PartialOrd, Ord)]
pub struct Owner {
    pub client: ClientNo,
    pub file: FileNo,
}
