// Made by tools/plain_rust from crates/share_server/src/values/out.rt. Changes belong there.

use crate::proved::lease_state::{ClientNo, FileNo, Patch, Reply};

/// What a call of the server gives out (profile), for the program that embeds it to do or to note.
#[derive(Debug, PartialEq, Eq)]
pub enum Out {
    /// The reply is to be sent to the client.
    Sent(ClientNo, Reply),
    /// The file was opened for the client.
    Opened(FileNo, ClientNo),
    /// The file was changed by the client's write of this number.
    Changed(FileNo, ClientNo, u64, Patch),
}
