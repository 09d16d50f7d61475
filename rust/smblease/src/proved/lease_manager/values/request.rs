// Made by tools/plain_rust from crates/lease_manager/src/values/request.rt. Changes belong there.

use crate::proved::lease_manager::values::key::LeaseName;
use crate::proved::lease_manager::values::number::{ClientNo, FileNo, Tag};
use crate::proved::lease_manager::values::open::OpenEntry;
use crate::proved::lease_state::{Access, FileId, LeaseKey, LeaseState, Order, Rules, Share};

/// What the create contexts of a CREATE request ask for (MS-SMB2 2.2.13.2).
#[derive(Clone, Copy, Debug, PartialEq, Eq)]
pub struct CreateAsk {
    /// The lease key, and the state that is wanted, which may be one that is never granted.
    pub lease: Option<(LeaseKey, LeaseState)>,
    /// A durable open is asked for.
    pub durable: bool,
    /// The durable open that is to be connected again.
    pub reconnect: Option<FileId>,
}

/// What a client asks of a file, without the bytes that are read or written.
#[derive(Clone, Copy, Debug, PartialEq, Eq)]
pub enum Ask {
    /// CREATE (MS-SMB2 2.2.13).
    Create { file: FileNo, access: Access, share: Share, ask: CreateAsk },
    /// READ (MS-SMB2 2.2.19).
    Read { fid: FileId },
    /// WRITE (MS-SMB2 2.2.21). `fits`: it ends within what the host allows of a file.
    Write { fid: FileId, fits: bool },
    /// CLOSE (MS-SMB2 2.2.15).
    Close { fid: FileId },
}

/// The key of a create, from its client and its RqLs context.
// docs/DECISIONS.md: "A create without RqLs has no key of its own".
pub fn key_asked(client: ClientNo, lease: Option<(LeaseKey, LeaseState)>) -> Option<LeaseName> {
    match lease {
        Some((bytes, _)) => Some(LeaseName { client, bytes }),
        None => None,
    }
}

/// Which requests of a client on a file have their turn one after another where the manager goes by keys.
#[derive(Clone, Copy, Debug, PartialEq, Eq)]
pub enum Lane {
    /// Those under the lease key.
    Leased(LeaseKey),
    /// Those by the FileId of an open without a key.
    Opened(FileId),
    /// A create without a key.
    Alone,
}

impl Lane {
    /// Whether requests of both have their turn one after another.
    pub fn is_same(self, other: Lane) -> bool {
        match (self, other) {
            (Lane::Leased(key), Lane::Leased(other)) => key == other,
            (Lane::Opened(fid), Lane::Opened(other)) => fid == other,
            _ => false,
        }
    }
}

/// A request that waits for a lease break, with its client, its lane as it was when the request came, and its tag.
#[derive(Debug)]
pub struct Held {
    pub client: ClientNo,
    pub ask: Ask,
    pub lane: Lane,
    pub tag: Tag,
}

impl Held {
    /// Whether an earlier request on its file goes first (profile).
    pub fn waits_behind(&self, rules: Rules, earlier: &Held) -> bool {
        earlier.client == self.client && (rules.order == Order::ByClient || earlier.lane.is_same(self.lane))
    }

    /// Whether some of these go first (profile).
    pub fn is_behind(&self, rules: Rules, held: &[Held]) -> bool {
        self.waits_behind_some(rules, held)
    }

    // Whether it waits behind some of these, as a test of each.
    fn waits_behind_some(&self, rules: Rules, held: &[Held]) -> bool {
        held.iter().any(|earlier| self.waits_behind(rules, earlier))
    }

    /// Whether it is a create under the key of the open.
    pub fn asks_with(&self, one: &OpenEntry) -> bool {
        match self.ask {
            Ask::Create { ask, .. } => one.has_own_key(key_asked(self.client, ask.lease)),
            _ => false,
        }
    }
}
