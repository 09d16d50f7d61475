// Made by tools/plain_rust from crates/lease_texts/src/kinds.rt. Changes belong there.

//! Tables of lines: what a field holds, and the fields of each kind.

/// What a field of a line holds.
#[derive(Clone, Copy, Debug, PartialEq, Eq)]
pub enum Field {
    Client,
    File,
    FileId,
    /// The number of a write.
    Number,
    Offset,
    Bytes,
    /// The first bytes of a file.
    Content,
    State,
    Access,
    Share,
    /// The rules of a server.
    Rules,
    /// Whether a write was buffered or sent.
    Way,
    /// What became of a write.
    Outcome,
    Guid,
    /// An acknowledgment's bytes.
    Message,
    Key,
    /// A lease break notification's bytes.
    Notification,
    Status,
    /// The word after a durable open, which others lack.
    Durable,
    /// A request in a client's name, which takes all that is left.
    Request,
    /// A message of the server, which takes all that is left.
    Reply,
}

/// A kind of line: the word that it begins with, and the fields after it.
#[derive(Clone, Copy, Debug)]
pub struct Row(pub &'static str, pub &'static [Field]);

/// A table of kinds, each of which has a name of its own: what is said of a word that is to name one of them, and the kinds.
#[derive(Clone, Copy, Debug)]
pub struct Table(pub &'static str, pub &'static [Row]);
