// Made by tools/plain_rust from crates/lease_facts/src/passage.rt. Changes belong there.

use crate::proved::lease_state::{ClientNo, Request};

/// What becomes of requests on their way from a client to the server (profile).
#[derive(Debug, PartialEq, Eq)]
pub enum Passage {
    /// The client sends a request; the record has so many facts by then.
    Sent { client: ClientNo, request: Request, facts: usize },
    /// The server takes the client's oldest request; the record has so many facts before that.
    Taken { client: ClientNo, facts: usize },
    /// All requests of the client are lost with its connection; the record has so many facts before that.
    Lost { client: ClientNo, facts: usize },
}
