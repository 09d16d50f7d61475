// Made by tools/plain_rust from crates/lease_facts/src/fact.rt. Changes belong there.

use crate::proved::lease_client::{Settlement, SharedBytes};
use crate::proved::lease_facts::words::is;
use crate::proved::lease_state::{Bytes, ClientNo, FileNo, LeaseState, Patch};

/// What happened (profile). A list of facts, in order, is a record; it names no table, no queue and
/// no lease.
#[derive(Debug, PartialEq, Eq)]
pub enum Fact {
    /// The file is there, with its first bytes.
    Start(FileNo, Bytes),
    /// The client's connection came.
    Joined(ClientNo),
    /// The client's connection was lost.
    Dropped(ClientNo),
    /// The timer of the client's broken lease of the file ran out.
    Expired(ClientNo, FileNo),
    /// A message was sent to the client.
    Sent(ClientNo),
    /// The client took the oldest message that was sent to it.
    Took(ClientNo),
    /// The server opened the file for the client.
    Opened(FileNo, ClientNo),
    /// The server changed the file by the client's write of this number.
    Changed(FileNo, ClientNo, u64, Patch),
    /// The client was given a write of this number; true where it was buffered and false where it was sent.
    Wrote(ClientNo, FileNo, u64, Patch, bool),
    /// The client learned what became of its write of this number.
    Settled(ClientNo, u64, Settlement),
    /// The client's belief of the file's lease became this state.
    Believes(ClientNo, FileNo, LeaseState),
    /// The client read the file from its cache as these bytes.
    CachedRead(ClientNo, FileNo, SharedBytes),
    /// A request was sent in the client's name that its machine didn't make.
    Strayed(ClientNo),
}

/// The kind of a fact that says no more than which client it is about.
#[derive(Clone, Copy, Debug, PartialEq, Eq)]
pub enum ClientFact {
    Sent,
    Took,
    Joined,
    Dropped,
    Strayed,
}

/// The kind of a fact.
#[derive(Clone, Copy, Debug, PartialEq, Eq)]
pub enum FactKind {
    Client(ClientFact),
    Start,
    Expired,
    Opened,
    Changed,
    Wrote,
    Settled,
    Believes,
    CachedRead,
}

impl Fact {
    /// Its kind.
    pub fn kind(&self) -> FactKind {
        match self {
            Fact::Start(_, _) => FactKind::Start,
            Fact::Joined(_) => FactKind::Client(ClientFact::Joined),
            Fact::Dropped(_) => FactKind::Client(ClientFact::Dropped),
            Fact::Expired(_, _) => FactKind::Expired,
            Fact::Sent(_) => FactKind::Client(ClientFact::Sent),
            Fact::Took(_) => FactKind::Client(ClientFact::Took),
            Fact::Opened(_, _) => FactKind::Opened,
            Fact::Changed(_, _, _, _) => FactKind::Changed,
            Fact::Wrote(_, _, _, _, _) => FactKind::Wrote,
            Fact::Settled(_, _, _) => FactKind::Settled,
            Fact::Believes(_, _, _) => FactKind::Believes,
            Fact::CachedRead(_, _, _) => FactKind::CachedRead,
            Fact::Strayed(_) => FactKind::Client(ClientFact::Strayed),
        }
    }

    /// The client that it is about, if it is about one.
    pub fn client(&self) -> Option<ClientNo> {
        match self {
            Fact::Start(_, _) => None,
            Fact::Joined(client)
            | Fact::Dropped(client)
            | Fact::Expired(client, _)
            | Fact::Sent(client)
            | Fact::Took(client)
            | Fact::Opened(_, client)
            | Fact::Changed(_, client, _, _)
            | Fact::Wrote(client, _, _, _, _)
            | Fact::Settled(client, _, _)
            | Fact::Believes(client, _, _)
            | Fact::CachedRead(client, _, _)
            | Fact::Strayed(client) => Some(*client),
        }
    }
}

impl ClientFact {
    /// The word that the line of such a fact begins with.
    pub fn word(self) -> &'static str {
        match self {
            ClientFact::Sent => "sent",
            ClientFact::Took => "took",
            ClientFact::Joined => "joined",
            ClientFact::Dropped => "dropped",
            ClientFact::Strayed => "strayed",
        }
    }

    /// What the client does.
    pub fn deed(self) -> &'static str {
        match self {
            ClientFact::Sent => "is sent a message",
            ClientFact::Took => "takes a message",
            ClientFact::Joined => "joins",
            ClientFact::Dropped => "loses its connection",
            ClientFact::Strayed => "strays",
        }
    }

    /// The kind that has this word.
    pub fn named(word: &[u8]) -> Option<ClientFact> {
        if is(word, b"sent") {
            Some(ClientFact::Sent)
        } else if is(word, b"took") {
            Some(ClientFact::Took)
        } else if is(word, b"joined") {
            Some(ClientFact::Joined)
        } else if is(word, b"dropped") {
            Some(ClientFact::Dropped)
        } else if is(word, b"strayed") {
            Some(ClientFact::Strayed)
        } else {
            None
        }
    }

    /// The fact of this kind about a client.
    pub fn of(self, client: ClientNo) -> Fact {
        match self {
            ClientFact::Sent => Fact::Sent(client),
            ClientFact::Took => Fact::Took(client),
            ClientFact::Joined => Fact::Joined(client),
            ClientFact::Dropped => Fact::Dropped(client),
            ClientFact::Strayed => Fact::Strayed(client),
        }
    }
}

impl FactKind {
    /// The word that the line of such a fact begins with.
    pub fn word(self) -> &'static str {
        match self {
            FactKind::Client(told) => told.word(),
            FactKind::Start => "start",
            FactKind::Expired => "expired",
            FactKind::Opened => "opened",
            FactKind::Changed => "changed",
            FactKind::Wrote => "wrote",
            FactKind::Settled => "settled",
            FactKind::Believes => "believes",
            FactKind::CachedRead => "cachedread",
        }
    }

    /// All these words.
    pub fn listed() -> &'static str {
        "start, joined, dropped, expired, sent, took, opened, changed, wrote, settled, believes, cachedread or strayed"
    }
}
