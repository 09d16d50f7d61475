use smblease::proved::lease_state::{Access, ClientNo, FileId, FileNo, LeaseKey, LeaseState, Request, Share};
use smblease::proved::lease_wire::{CreateAsk, read_create};

/// Names a lease.
#[derive(Clone, Copy, PartialEq, Eq, PartialOrd, Ord)]
pub struct Key {
    pub client: ClientNo,
    pub bytes: LeaseKey,
}

/// A lease, which is there while an open has its key.
#[derive(Clone, Copy)]
pub struct Lease {
    pub key: Key,
    pub state: LeaseState,
    /// The state that it is to have, while it is breaking.
    pub broken_to: Option<LeaseState>,
}

/// An open, whose key is `None` where it has no lease: it counts as a key of its own then.
#[derive(Clone, Copy)]
pub struct Open {
    pub fid: FileId,
    pub client: ClientNo,
    pub file: FileNo,
    pub key: Option<Key>,
    pub access: Access,
    pub share: Share,
    pub durable: bool,
    pub connected: bool,
}

impl Open {
    /// Whether it is on the file under another key than the request's.
    pub fn is_other(&self, own: Option<Key>, file: FileNo) -> bool {
        self.file == file && (self.key.is_none() || self.key != own)
    }

    /// Whether it outlives its client's connection.
    pub fn outlasts(&self, leases: &[Lease]) -> bool {
        let lasts = |lease: &Lease| lease.state.caches_handles() && lease.broken_to.is_none();
        self.durable && leases.iter().any(|lease| self.key == Some(lease.key) && lasts(lease))
    }
}

/// A request to open a file, with its client and its contexts read.
#[derive(Clone, Copy)]
pub struct Opening {
    pub client: ClientNo,
    pub file: FileNo,
    pub access: Access,
    pub share: Share,
    pub ask: CreateAsk,
}

impl Opening {
    /// `None` for any other request, and where the contexts have a fault.
    pub fn of(client: ClientNo, request: &Request) -> Option<Opening> {
        match request {
            Request::Create { file, access, share, contexts } => {
                Some(Opening { client, file: *file, access: *access, share: *share, ask: read_create(contexts.as_slice()).ok()? })
            }
            _ => None,
        }
    }

    /// The key that it names; `None` where it asks for no lease.
    pub fn key(&self) -> Option<Key> {
        let client = self.client;
        self.ask.lease.map(|(bytes, _)| Key { client, bytes })
    }

    /// Whether it conflicts with this open.
    pub fn conflicts(&self, one: &Open) -> bool {
        one.file == self.file && !(self.access.is_within(one.share) && one.access.is_within(self.share))
    }

    /// Whether it is to connect this open again, which waits for its client.
    pub fn awaits(&self, one: &Open) -> bool {
        self.ask.reconnect == Some(one.fid)
            && one.key.is_some()
            && one.key == self.key()
            && one.file == self.file
            && !one.connected
    }
}

/// A request with its client and the file that it is about, and with the key that it stands under and the FileId that it
/// names, if any, as they were when it came.
pub struct Held {
    pub client: ClientNo,
    pub file: FileNo,
    pub key: Option<Key>,
    pub fid: Option<FileId>,
    pub request: Request,
}

impl Held {
    /// Whether both stand under one lease key, or name one FileId.
    pub fn stands_with(&self, other: &Held) -> bool {
        (self.key.is_some() && self.key == other.key) || (self.fid.is_some() && self.fid == other.fid)
    }
}
