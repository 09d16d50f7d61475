// Made by tools/plain_rust from crates/capture_walk/src/event.rt. Changes belong there.

use crate::proved::capture_judge::Level;
use smblease::proved::lease_state::{LeaseKey, LeaseState};

/// A lease: that of a client under a key on a file. The numbers of clients and files are those of the
/// messages with which the capture begins to show them.
#[derive(Clone, Copy, Debug, PartialEq, Eq, PartialOrd, Ord)]
pub struct Lease {
    pub client: u64,
    pub key: LeaseKey,
    pub file: u64,
}

impl Lease {
    /// Whether it is the same lease.
    pub fn is(self, other: Lease) -> bool {
        self.client == other.client && self.file == other.file && self.key.0.as_slice() == other.key.0.as_slice()
    }
}

/// A message of the server, as far as it can be shown to have been taken.
#[derive(Clone, Copy, Debug, PartialEq, Eq)]
pub struct Sent {
    /// Its connection.
    pub connection: u64,
    /// The message's number.
    pub number: u64,
    /// Where the capture has it.
    pub position: u64,
}

/// A grant of a lease, or a further one under its key.
#[derive(Clone, Copy, Debug, PartialEq, Eq)]
pub struct Grant {
    pub lease: Lease,
    pub state: LeaseState,
    pub level: Level,
    pub sent: Sent,
    /// The last position at which the client sent the request, before which the server can't have taken it.
    pub asked: u64,
    /// Epoch, where the lease is of version 2.
    pub epoch: Option<u16>,
}

/// A break of a lease.
#[derive(Clone, Copy, Debug, PartialEq, Eq)]
pub struct Break {
    pub lease: Lease,
    /// What it leaves.
    pub state: LeaseState,
    pub level: Level,
    pub sent: Sent,
    /// Whether it has to be acknowledged.
    pub acknowledged: bool,
    /// NewEpoch, where the lease is of version 2.
    pub epoch: Option<u16>,
}

// What the server says of a lease, by a grant or a break.
#[derive(Clone, Copy, Debug)]
pub(crate) struct Said {
    pub(crate) sent: Sent,
    pub(crate) level: Level,
    pub(crate) epoch: Option<u16>,
    // Whether it is a break.
    pub(crate) breaks: bool,
}

impl Grant {
    pub(crate) fn said(&self) -> Said {
        Said { sent: self.sent, level: self.level, epoch: self.epoch, breaks: false }
    }
}

impl Break {
    pub(crate) fn said(&self) -> Said {
        Said { sent: self.sent, level: self.level, epoch: self.epoch, breaks: true }
    }
}

/// An acknowledgment of a break.
#[derive(Clone, Copy, Debug, PartialEq, Eq)]
pub struct Acknowledged {
    pub lease: Lease,
    /// What the client says that it keeps.
    pub level: Level,
    /// Its connection.
    pub connection: u64,
    /// Its MessageId.
    pub id: u64,
    /// The last position at which the client sent it.
    pub last: u64,
}

/// The end of the last open under a lease.
#[derive(Clone, Copy, Debug, PartialEq, Eq)]
pub struct End {
    pub lease: Lease,
    /// The first position at which the client can have given it up.
    pub first: u64,
    /// The last one.
    pub last: u64,
    /// The connection of the message that ends it.
    pub connection: u64,
    /// Its MessageId, where it is a CLOSE.
    pub closing: Option<u64>,
}

/// What shows which of the server's messages a client had taken on a connection.
#[derive(Clone, Copy, Debug, PartialEq, Eq)]
pub struct Proof {
    pub connection: u64,
    /// The number of the server's last message that it shows to have been taken, and with it all before.
    pub number: u64,
    /// The last position at which it can have taken that one.
    pub last: u64,
}

/// A break under a key under which no open of the client is known.
#[derive(Clone, Copy, Debug, PartialEq, Eq)]
pub struct Stray {
    /// The client's number.
    pub client: u64,
    pub key: LeaseKey,
    pub sent: Sent,
}

/// An epoch of a lease that doesn't follow on the one before it (MS-SMB2 3.2.5.19.2, 3.3.4.7), so that clients may pass the
/// message over.
#[derive(Clone, Copy, Debug, PartialEq, Eq)]
pub struct Misnumbered {
    pub lease: Lease,
    /// The epoch that the server gave before.
    pub before: u16,
    pub epoch: u16,
    /// Where the capture has the message.
    pub position: u64,
}

/// Why a client isn't judged any more.
#[derive(Clone, Copy, Debug, PartialEq, Eq)]
pub enum NotJudged {
    /// Something of one of its connections is missing, or can't be read.
    Missing,
    /// It has a lease under one key on two files, or what it learns of a lease comes over several connections, and neither epochs
    /// nor requests show in which order.
    Disputed,
    /// A break under the key of one of its leases came over a connection of which it isn't known whose it is.
    Stranger,
}

/// A client that isn't judged from a position on.
#[derive(Clone, Copy, Debug, PartialEq, Eq)]
pub struct Loss {
    /// The client's number.
    pub client: u64,
    /// The first position from which on something of it may be missing, on whichever of its connections; 0 where nothing of it is
    /// sure.
    pub since: u64,
    pub reason: NotJudged,
}

/// A request.
#[derive(Clone, Copy, Debug, PartialEq, Eq)]
pub struct Asked {
    /// The lease that it is about, where it names an open under one by its FileId, or acknowledges a break.
    pub lease: Option<Lease>,
    /// The number of the message that made that open, or for an acknowledgment the last one under the lease; 0 where there is
    /// none.
    pub opened: u64,
    pub connection: u64,
    /// Its MessageId.
    pub id: u64,
    /// The last position at which the client sent it, before which the server can't have taken it.
    pub position: u64,
}

/// A response that answers a request for good.
#[derive(Clone, Copy, Debug, PartialEq, Eq)]
pub struct Answered {
    pub connection: u64,
    /// The request's MessageId.
    pub id: u64,
    /// The server did what the request asks.
    pub done: bool,
    /// Where the capture has the response.
    pub position: u64,
}

/// An answer that shows that the server has no such open any more: it ended it by itself, at some time before.
#[derive(Clone, Copy, Debug, PartialEq, Eq)]
pub struct Gone {
    /// The number of the message that made the open; 0 where the request is about none that is known.
    pub opened: u64,
}

/// The end of an open under a lease.
#[derive(Clone, Copy, Debug, PartialEq, Eq)]
pub struct Closed {
    /// The number of the message that made the open.
    pub opened: u64,
}

/// A CREATE makes a file in the place of another one.
#[derive(Clone, Copy, Debug, PartialEq, Eq)]
pub struct Remade {
    /// The number of the other one.
    pub file: u64,
    /// The last position of the request, from which on what is opened by the name may be either.
    pub since: u64,
}

/// What a message of a capture shows of leases.
#[derive(Clone, Copy, Debug, PartialEq, Eq)]
pub enum Event {
    Granted(Grant),
    Broken(Break),
    Acknowledged(Acknowledged),
    Asked(Asked),
    Answered(Answered),
    Gone(Gone),
    Closed(Closed),
    Ended(End),
    Taken(Proof),
    /// A break is of no lease that is known.
    Stray(Stray),
    /// An epoch doesn't follow on.
    Misnumbered(Misnumbered),
    /// A client isn't judged any more.
    Lost(Loss),
    /// Nor is a file.
    Remade(Remade),
}
