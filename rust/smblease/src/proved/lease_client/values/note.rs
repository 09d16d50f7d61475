// Made by tools/plain_rust from crates/lease_client/src/values/note.rt. Changes belong there.

use crate::proved::lease_client::values::shared_bytes::SharedBytes;
use crate::proved::lease_state::{FileNo, LeaseState, Patch};

/// What became of a write (profile).
#[derive(Clone, Copy, Debug, PartialEq, Eq, Hash)]
pub enum Settlement {
    /// The server did it.
    Done,
    /// The server refused it, or it was buffered and can't be sent any more.
    Failed,
    /// Its answer was lost with the connection.
    Unknown,
    /// It was kept over a lost connection and is given up. It may have been sent before, and even done.
    Lost,
}

/// What a client machine notes (profile), for the program that embeds it.
#[derive(Debug, PartialEq, Eq)]
pub enum Note {
    /// What became of the write of this number.
    Settled(u64, Settlement),
    /// The write of this number was taken; true where it was buffered and false where it was sent.
    Wrote(FileNo, u64, Patch, bool),
    /// The client's belief of the file's lease became this state.
    Believes(FileNo, LeaseState),
    /// The file was read from the cache as these bytes.
    CachedRead(FileNo, SharedBytes),
}
