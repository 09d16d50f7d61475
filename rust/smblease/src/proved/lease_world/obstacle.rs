// Made by tools/plain_rust from crates/lease_world/src/obstacle.rt. Changes belong there.

use crate::proved::lease_client::{Answer, Command, Refusal};
use crate::proved::lease_state::{ClientNo, FileNo};
use crate::proved::lease_world::world::link::Link;

/// Why an event does nothing (profile).
#[derive(Clone, Copy, Debug, PartialEq, Eq)]
pub enum Obstacle {
    /// There is no client of this number.
    NoClient(ClientNo),
    /// The command is refused.
    Refused(Refusal),
    /// The client has no unsent write of the file that a flush could send.
    NothingUnsent(ClientNo, FileNo),
    /// No request of the client is on its way.
    NoRequest(ClientNo),
    /// No message to the client is on its way.
    NoReply(ClientNo),
    /// The client isn't connected.
    NotConnected(ClientNo),
    /// The client is connected.
    Connected(ClientNo),
    /// The client's connection is lost, and it hasn't noticed that.
    Unnoticed(ClientNo),
    /// There is no file of this number.
    NoFile(FileNo),
    /// No break of the client's lease of the file waits.
    NoBreak(ClientNo, FileNo),
    /// No open of the file is kept for the client while it isn't connected.
    NoOpen(ClientNo, FileNo),
}

/// An event of a run that did nothing.
#[derive(Clone, Copy, Debug, PartialEq, Eq)]
pub struct Idle {
    /// Its place among the events, from 0.
    pub event: usize,
    /// How many facts the record has before it.
    pub facts: usize,
    /// What stood in its way.
    pub obstacle: Obstacle,
}

impl Obstacle {
    /// What stands in the way of a client's command that is answered so.
    pub(crate) fn of_command(client: ClientNo, command: &Command, answer: &Answer) -> Option<Obstacle> {
        match answer {
            Answer::Refused(refusal) => Some(Obstacle::Refused(*refusal)),
            Answer::Done => match command {
                Command::Flush { file } => Some(Obstacle::NothingUnsent(client, *file)),
                _ => None,
            },
            _ => None,
        }
    }

    /// What stands in the way where the client has to be connected.
    pub(crate) fn unless_up(client: ClientNo, link: Link) -> Option<Obstacle> {
        match link {
            Link::Up => None,
            Link::Down | Link::Cut => Some(Obstacle::NotConnected(client)),
        }
    }

    /// What stands in the way of noticing that the client's connection was lost.
    pub(crate) fn unless_cut(client: ClientNo, link: Link) -> Option<Obstacle> {
        match link {
            Link::Down => Some(Obstacle::NotConnected(client)),
            Link::Up => Some(Obstacle::Connected(client)),
            Link::Cut => None,
        }
    }

    /// What stands in the way of connecting the client.
    pub(crate) fn unless_down(client: ClientNo, link: Link) -> Option<Obstacle> {
        match link {
            Link::Down => None,
            Link::Up => Some(Obstacle::Connected(client)),
            Link::Cut => Some(Obstacle::Unnoticed(client)),
        }
    }
}
