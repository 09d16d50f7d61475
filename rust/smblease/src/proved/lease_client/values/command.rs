// Made by tools/plain_rust from crates/lease_client/src/values/command.rt. Changes belong there.

use crate::proved::lease_state::{Access, Bytes, FileNo, LeaseState, Patch, Share, Status};

/// What an application asks of a client machine (profile).
#[derive(Debug, PartialEq, Eq)]
pub enum Command {
    /// One more handle on the file. `want` is the lease's state that is wanted with it; a `durable`
    /// open is to outlive its connection.
    Open {
        file: FileNo,
        access: Access,
        share: Share,
        want: LeaseState,
        durable: bool,
    },
    /// One handle less.
    Close {
        file: FileNo,
    },
    /// The whole file.
    Read {
        file: FileNo,
    },
    Write {
        file: FileNo,
        patch: Patch,
    },
    /// The buffered writes of the file are to be sent.
    Flush {
        file: FileNo,
    },
}

impl Command {
    /// The file that it is about.
    pub(crate) fn file(&self) -> FileNo {
        match self {
            Command::Open { file, .. }
            | Command::Close { file }
            | Command::Read { file }
            | Command::Write { file, .. }
            | Command::Flush { file } => *file,
        }
    }
}

/// Why a command is refused (profile). It then changes nothing and sends nothing.
#[derive(Clone, Copy, Debug, PartialEq, Eq, Hash)]
pub enum Refusal {
    /// The client has no such file, or no handle on it.
    NotOpen,
    /// An answer of the server has to come first.
    Busy,
    /// Another access or share than that of the open; no command is answered so any more.
    // docs/DECISIONS.md: "Differs is never answered".
    Differs,
    /// The client isn't connected, or the file's open isn't connected again yet.
    Offline,
    /// The write ends past `FILE_LIMIT`.
    TooLong,
    /// The open's access doesn't allow it.
    Denied,
    /// No number or count is left for it.
    UsedUp,
}

/// What an application is answered (profile).
#[derive(Debug, PartialEq, Eq)]
pub enum Answer {
    Done,
    /// The answer comes with a reply of the server.
    Waiting,
    /// The bytes of the file, and whether they came from the cache.
    Bytes(Bytes, bool),
    Refused(Refusal),
    /// The server refused it with this status.
    Failed(Status),
    /// There is nothing to be answered.
    Quiet,
}
