// Made by tools/plain_rust from crates/lease_world/src/world/link.rt. Changes belong there.

/// How a client is connected (profile).
#[derive(Clone, Copy, Debug, PartialEq, Eq)]
pub enum Link {
    Down,
    Up,
    /// The server has lost the connection, and the client hasn't noticed yet.
    Cut,
}
