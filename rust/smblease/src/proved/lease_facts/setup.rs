// Made by tools/plain_rust from crates/lease_facts/src/setup.rt. Changes belong there.

use std::prelude::Vec;

use crate::proved::lease_client::Command;
use crate::proved::lease_facts::words::is;
use crate::proved::lease_state::{ClientNo, Content, FileNo, Request};

/// What a run begins with (profile).
#[derive(Debug)]
pub struct Setup {
    /// The files, numbered from 1: 8 at most.
    pub files: Vec<Content>,
    /// The ClientGuids of the clients, numbered from 1: 16 at most, and no two of them equal.
    pub clients: Vec<[u8; 16]>,
}

/// What can happen in a world (profile). An event that doesn't apply, or that names a client or a
/// file which the setup lacks, does nothing.
#[derive(Debug, PartialEq, Eq)]
pub enum Event {
    /// A client's application gives a command.
    App(ClientNo, Command),
    /// The server takes the oldest request of the client.
    ServerTakes(ClientNo),
    /// The client takes the oldest message that was sent to it.
    ClientTakes(ClientNo),
    /// The server loses the client's connection, and all that is on its way is gone.
    Cut(ClientNo),
    /// The client notices that its connection was lost.
    Notice(ClientNo),
    /// The client connects.
    Connect(ClientNo),
    /// The timer of the lease of the client's key of the file runs out.
    Expire(ClientNo, FileNo),
    /// The timer of the client's lowest kept open of the file runs out.
    Scavenge(ClientNo, FileNo),
    /// A request is sent in the client's name that its machine didn't make.
    Raw(ClientNo, Request),
}

/// The kind of an event that says no more than which client it is about.
#[derive(Clone, Copy, Debug, PartialEq, Eq)]
pub enum ClientEvent {
    ServerTakes,
    ClientTakes,
    Cut,
    Notice,
    Connect,
}

impl Event {
    /// The client that it is about.
    pub fn client(&self) -> ClientNo {
        match self {
            Event::App(client, _)
            | Event::ServerTakes(client)
            | Event::ClientTakes(client)
            | Event::Cut(client)
            | Event::Notice(client)
            | Event::Connect(client)
            | Event::Expire(client, _)
            | Event::Scavenge(client, _)
            | Event::Raw(client, _) => *client,
        }
    }

    /// Its kind, where it says no more than which client it is about.
    pub fn client_event(&self) -> Option<ClientEvent> {
        match self {
            Event::ServerTakes(_) => Some(ClientEvent::ServerTakes),
            Event::ClientTakes(_) => Some(ClientEvent::ClientTakes),
            Event::Cut(_) => Some(ClientEvent::Cut),
            Event::Notice(_) => Some(ClientEvent::Notice),
            Event::Connect(_) => Some(ClientEvent::Connect),
            _ => None,
        }
    }
}

impl ClientEvent {
    /// The word that the line of such an event begins with.
    pub fn word(self) -> &'static str {
        match self {
            ClientEvent::ServerTakes => "serve",
            ClientEvent::ClientTakes => "take",
            ClientEvent::Cut => "cut",
            ClientEvent::Notice => "notice",
            ClientEvent::Connect => "connect",
        }
    }

    /// The kind that has this word.
    pub fn named(word: &[u8]) -> Option<ClientEvent> {
        if is(word, b"serve") {
            Some(ClientEvent::ServerTakes)
        } else if is(word, b"take") {
            Some(ClientEvent::ClientTakes)
        } else if is(word, b"cut") {
            Some(ClientEvent::Cut)
        } else if is(word, b"notice") {
            Some(ClientEvent::Notice)
        } else if is(word, b"connect") {
            Some(ClientEvent::Connect)
        } else {
            None
        }
    }

    /// The event of this kind about a client.
    pub fn of(self, client: ClientNo) -> Event {
        match self {
            ClientEvent::ServerTakes => Event::ServerTakes(client),
            ClientEvent::ClientTakes => Event::ClientTakes(client),
            ClientEvent::Cut => Event::Cut(client),
            ClientEvent::Notice => Event::Notice(client),
            ClientEvent::Connect => Event::Connect(client),
        }
    }

    /// The words of all lines of schedules.
    pub fn listed() -> &'static str {
        "file, client, open, close, read, flush, write, serve, take, cut, notice, connect, expire, scavenge or raw"
    }
}
