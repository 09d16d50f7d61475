// Made by tools/plain_rust from crates/capture_walk/src/note.rt. Changes belong there.

use crate::proved::capture_judge::Level;
use smblease::proved::capture_wire::{FileOnDisk, Guid, Smb2FileId};
use smblease::proved::lease_state::{LeaseKey, LeaseState};

/// A TREE_CONNECT request.
#[derive(Clone, Copy, Debug, PartialEq, Eq)]
pub struct TreeAsked<'a> {
    /// Its MessageId.
    pub id: u64,
    /// The share's path, as it stands in the request.
    pub path: &'a [u8],
}

/// A TREE_CONNECT response of STATUS_SUCCESS.
#[derive(Clone, Copy, Debug, PartialEq, Eq)]
pub struct TreeGiven {
    /// Its MessageId.
    pub id: u64,
    pub session: u64,
    pub tree: u32,
}

/// A CREATE request.
#[derive(Clone, Copy, Debug, PartialEq, Eq)]
pub struct CreateAsked<'a> {
    /// Its MessageId.
    pub id: u64,
    pub tree: u32,
    /// The file's name below the share, as it stands in the request.
    pub name: &'a [u8],
    /// The key of the lease that it asks for.
    pub key: Option<LeaseKey>,
    /// The file isn't the one that has the name: a durable open is connected again, or an earlier version is opened.
    pub unnamed: bool,
    /// A CLOSE in the same compound closes what it opens.
    pub closes: bool,
    /// AppInstanceId of the application that asks.
    pub application: Option<Guid>,
}

/// A lease in a CREATE response.
#[derive(Clone, Copy, Debug, PartialEq, Eq)]
pub struct LeaseGiven {
    pub key: LeaseKey,
    pub state: LeaseState,
    pub level: Level,
    /// A break of it is in progress, so that nothing is granted.
    pub breaking: bool,
    /// Epoch, where the lease is of version 2.
    pub epoch: Option<u16>,
}

/// A CREATE response of STATUS_SUCCESS.
#[derive(Clone, Copy, Debug, PartialEq, Eq)]
pub struct CreateGiven {
    /// Its MessageId.
    pub id: u64,
    pub session: u64,
    pub file_id: Smb2FileId,
    /// Whether it made the file, or another one in its place.
    pub is_new: bool,
    /// When the file was made.
    pub creation_time: u64,
    /// Which file it is on the server's disk.
    pub on_disk: Option<FileOnDisk>,
    /// A lease of either version on a file; those on folders don't count.
    pub lease: Option<LeaseGiven>,
}

/// A request about an open, with what names it.
#[derive(Clone, Copy, Debug, PartialEq, Eq)]
pub struct OpenName {
    /// The request's MessageId.
    pub id: u64,
    pub session: u64,
    pub file_id: Smb2FileId,
}

/// A tree connect, as requests name it.
#[derive(Clone, Copy, Debug, PartialEq, Eq)]
pub struct TreeName {
    pub session: u64,
    pub tree: u32,
}

/// What an acknowledgment says of the lease under a key.
#[derive(Clone, Copy, Debug, PartialEq, Eq)]
pub struct KeyLevel {
    /// Its MessageId.
    pub id: u64,
    pub key: LeaseKey,
    pub level: Level,
}

/// A notification of a lease break.
#[derive(Clone, Copy, Debug, PartialEq, Eq)]
pub struct BreakNote {
    pub key: LeaseKey,
    /// What it leaves.
    pub state: LeaseState,
    pub level: Level,
    /// Whether it has to be acknowledged.
    pub acknowledged: bool,
    /// NewEpoch, which counts where the lease is of version 2.
    pub epoch: u16,
}

/// What a message says, as far as the walk goes by it.
#[derive(Clone, Copy, Debug, PartialEq, Eq)]
pub enum Note<'a> {
    /// A NEGOTIATE request, with its ClientGuid.
    Negotiate(Guid),
    TreeAsked(TreeAsked<'a>),
    TreeGiven(TreeGiven),
    CreateAsked(CreateAsked<'a>),
    CreateGiven(CreateGiven),
    /// Any other response of STATUS_SUCCESS, by its MessageId: the server did what the request asks.
    Done(u64),
    /// A response by which the server has no such open any more, by its MessageId.
    Gone(u64),
    /// Any other response but an interim one, by its MessageId.
    Answered(u64),
    /// A request that is about an open, and doesn't close it.
    OnOpen(OpenName),
    /// A CLOSE request.
    Close(OpenName),
    /// A LOGOFF of the session, or a SESSION_SETUP that stands for it.
    Leave(u64),
    /// A TREE_DISCONNECT request.
    LeaveTree(TreeName),
    /// An acknowledgment of a lease break, with what the client keeps.
    Acknowledge(KeyLevel),
    Break(BreakNote),
    /// A request, by its MessageId, by which names of the server's files may come to lead to other files.
    RenameAsked(u64),
    /// Something is missing, or can't be read.
    Gap,
    /// The client has taken all messages of the server on the connection up to this number: at a capture made at the client,
    /// after each frame of the server.
    Taken,
    /// The connection ends.
    End,
    /// Any other request, by its MessageId.
    Asked(u64),
    Other,
}

impl<'a> Note<'a> {
    pub(crate) fn negotiated(self) -> Option<Guid> {
        match self {
            Note::Negotiate(guid) => Some(guid),
            _ => None,
        }
    }

    pub(crate) fn tree_asked(self) -> Option<TreeAsked<'a>> {
        match self {
            Note::TreeAsked(asked) => Some(asked),
            _ => None,
        }
    }

    pub(crate) fn tree_given(self) -> Option<TreeGiven> {
        match self {
            Note::TreeGiven(given) => Some(given),
            _ => None,
        }
    }

    pub(crate) fn create_asked(self) -> Option<CreateAsked<'a>> {
        match self {
            Note::CreateAsked(asked) => Some(asked),
            _ => None,
        }
    }

    pub(crate) fn create_given(self) -> Option<CreateGiven> {
        match self {
            Note::CreateGiven(given) => Some(given),
            _ => None,
        }
    }

    // The MessageId of the request that it answers for good, if that may be a CREATE.
    pub(crate) fn answered(self) -> Option<u64> {
        match self {
            Note::CreateGiven(given) => Some(given.id),
            Note::Done(id) | Note::Answered(id) | Note::Gone(id) => Some(id),
            _ => None,
        }
    }

    // Whether the server did what a request asks.
    pub(crate) fn is_done(self) -> bool {
        matches!(self, Note::CreateGiven(_) | Note::Done(_))
    }

    // Whether it is a client's message that says something.
    pub(crate) fn is_request(self) -> bool {
        matches!(
            self,
            Note::Negotiate(_)
                | Note::TreeAsked(_)
                | Note::CreateAsked(_)
                | Note::OnOpen(_)
                | Note::Close(_)
                | Note::Leave(_)
                | Note::LeaveTree(_)
                | Note::Acknowledge(_)
                | Note::RenameAsked(_)
        )
    }

    // Whether it is a server's message that says something.
    pub(crate) fn is_answer(self) -> bool {
        matches!(
            self,
            Note::TreeGiven(_) | Note::CreateGiven(_) | Note::Done(_) | Note::Answered(_) | Note::Gone(_) | Note::Break(_)
        )
    }

    // Whether it ends opens of a connection, a session or a tree connect.
    pub(crate) fn leaves(self) -> bool {
        matches!(self, Note::End | Note::Leave(_) | Note::LeaveTree(_))
    }

    pub(crate) fn is_gap(self) -> bool {
        matches!(self, Note::Gap)
    }

    pub(crate) fn rename_asked(self) -> Option<u64> {
        match self {
            Note::RenameAsked(id) => Some(id),
            _ => None,
        }
    }
}

/// A message where a capture has it, or that something is missing.
#[derive(Clone, Copy, Debug, PartialEq, Eq)]
pub struct Seen<'a> {
    /// Its number among all messages of the capture, in their order.
    pub number: u64,
    /// The number of its connection.
    pub connection: u64,
    /// The number of the server's address and port.
    pub server: u64,
    /// The first position at which it can have been sent.
    pub earliest: u64,
    /// The last one.
    pub latest: u64,
    pub note: Note<'a>,
}
