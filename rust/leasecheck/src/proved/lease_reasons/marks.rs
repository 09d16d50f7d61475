// Made by tools/plain_rust from crates/lease_reasons/src/marks.rt. Changes belong there.

use smblease::proved::lease_facts::Fact;
use smblease::proved::lease_state::{ClientNo, FileNo};

/// A kind of fact that is looked for.
#[derive(Clone, Copy, Debug, PartialEq, Eq)]
pub enum Mark {
    /// The file is started.
    Start(FileNo),
    /// The file is changed.
    Change(FileNo),
    /// The client joins.
    Joining(ClientNo),
    /// The client takes a message.
    Taking(ClientNo),
    /// The client is given a write of this number.
    Write(ClientNo, u64),
    /// A file is changed by the client's write of this number.
    ChangeBy(ClientNo, u64),
    /// The client buffers a write of the file of this number.
    Buffering(ClientNo, FileNo, u64),
    /// Another client than this one opens or changes the file.
    Touch(ClientNo, FileNo),
}

impl Mark {
    /// Whether a fact is of this kind.
    pub fn fits(self, fact: &Fact) -> bool {
        match (self, fact) {
            (Mark::Start(file), Fact::Start(other, _)) => *other == file,
            (Mark::Change(file), Fact::Changed(other, _, _, _)) => *other == file,
            (Mark::Joining(client), Fact::Joined(other)) => *other == client,
            (Mark::Taking(client), Fact::Took(other)) => *other == client,
            (Mark::Write(client, number), Fact::Wrote(writer, _, used, _, _)) => *writer == client && *used == number,
            (Mark::ChangeBy(client, number), Fact::Changed(_, writer, used, _)) => *writer == client && *used == number,
            (Mark::Buffering(client, file, number), Fact::Wrote(writer, other, used, _, buffered)) => {
                *writer == client && *other == file && *used == number && *buffered
            }
            (Mark::Touch(client, file), Fact::Opened(other, opener)) => *other == file && *opener != client,
            (Mark::Touch(client, file), Fact::Changed(other, writer, _, _)) => *other == file && *writer != client,
            _ => false,
        }
    }

    /// Where the last fact of this kind stands.
    pub fn last(self, facts: &[Fact]) -> Option<usize> {
        let mut found = None;
        for (index, fact) in facts.iter().enumerate() {
            if self.fits(fact) {
                found = Some(index + 1);
            }
        }
        found
    }

    /// Where the first fact of this kind stands after a place.
    pub fn first(self, facts: &[Fact], behind: usize) -> Option<usize> {
        let mut found = None;
        for (index, fact) in facts.iter().enumerate() {
            if found.is_none() && index >= behind && self.fits(fact) {
                found = Some(index + 1);
            }
        }
        found
    }
}
