// Made by tools/plain_rust from crates/share_server/src/values/coming.rt. Changes belong there.

use crate::proved::lease_state::{ClientNo, FileId, LeaseKey, Request};

/// What comes to a server.
#[derive(Debug)]
pub enum Coming {
    /// A client connects.
    Joins(ClientNo),
    /// A request of a client comes.
    Asks(ClientNo, Request),
    /// A client's connection is lost.
    IsCut(ClientNo),
    /// The timer of the break of a client's lease runs out.
    Expires(ClientNo, LeaseKey),
    /// The timer of a durable open runs out.
    Scavenges(FileId),
}
