// Made by tools/plain_rust from crates/lease_client/src/entry/connection.rt. Changes belong there.

use std::prelude::Vec;

use crate::proved::lease_client::entry::turn::{Given, Turn};
use crate::proved::lease_client::entry::{Entry, Live, Parted, Phase};
use crate::proved::lease_client::requests;
use crate::proved::lease_client::values::command::Answer;
use crate::proved::lease_client::values::note::Settlement;
use crate::proved::lease_client::writes::push_settled;
use crate::proved::lease_client::writes::queue::Writes;
use crate::proved::lease_state::{FileNo, LeaseKey, Memory};

impl Entry {
    /// The connection is lost (MS-SMB2 3.2.7.1).
    ///
    /// # Errors
    ///
    /// `Memory` where there is none left for the notes.
    pub fn noticed(&mut self, given: &mut Given) -> Result<(), Memory> {
        let Entry { phase, sent } = self.take();
        match phase {
            Phase::Closed | Phase::Opening { .. } => {
                ended(sent)?.put_into(self, given);
                Ok(())
            }
            Phase::Live(live) => {
                live.noticed(sent)?.put_into(self, given);
                Ok(())
            }
            Phase::Offline(parted) | Phase::Reconnecting(parted) => {
                parted.offline(sent)?.put_into(self, given);
                Ok(())
            }
        }
    }

    /// The client connects: an offline entry reconnects (3.2.4.4).
    ///
    /// # Errors
    ///
    /// `Memory` where there is none left for the request, and never where the entry isn't offline.
    pub fn connected(&mut self, file: FileNo, key: LeaseKey, given: &mut Given) -> Result<(), Memory> {
        let Entry { phase, sent } = self.take();
        match phase {
            Phase::Offline(parted) => {
                parted.reconnecting(sent, file, key)?.put_into(self, given);
                Ok(())
            }
            phase => {
                self.put_back(phase, sent);
                given.begin(Answer::Quiet);
                Ok(())
            }
        }
    }
}

// An entry that doesn't outlive its connection: of its writes nobody knows.
fn ended(unanswered: Writes) -> Result<Turn, Memory> {
    let alloc = unanswered.alloc();
    let mut notes = Vec::new(alloc);
    push_settled(&mut notes, Settlement::Unknown, &unanswered)?;
    Ok(Turn { entry: Entry::closed(alloc), answer: Answer::Quiet, requests: Vec::new(alloc), notes })
}

impl Parted {
    // The open waits for the next connection, and nobody knows of the other writes.
    fn offline(self, unanswered: Writes) -> Result<Turn, Memory> {
        let alloc = unanswered.alloc();
        let mut notes = Vec::new(alloc);
        push_settled(&mut notes, Settlement::Unknown, &unanswered)?;
        Ok(Turn {
            entry: Entry { phase: Phase::Offline(self), sent: Writes::new(alloc) },
            answer: Answer::Quiet,
            requests: Vec::new(alloc),
            notes,
        })
    }

    fn reconnecting(self, sent: Writes, file: FileNo, key: LeaseKey) -> Result<Turn, Memory> {
        let alloc = sent.alloc();
        let mut requests = Vec::new(alloc);
        requests.push(requests::connect_again(alloc, file, key, &self)?)?;
        Ok(Turn {
            entry: Entry { phase: Phase::Reconnecting(self), sent },
            answer: Answer::Quiet,
            requests,
            notes: Vec::new(alloc),
        })
    }
}

impl Live {
    // A durable open goes offline. Under W it keeps its buffered writes, those sent and those unsent.
    fn noticed(self, sent: Writes) -> Result<Turn, Memory> {
        let alloc = sent.alloc();
        let Live { file_id, access, share, durable, belief, handles, file, .. } = self;
        let mut unsent = file.into_unsent();
        let mut unanswered = sent;
        unanswered.append(&mut unsent)?;
        if !durable {
            return ended(unanswered);
        }
        let (writes, others) =
            if belief.caches_writes() { unanswered.split_buffered()? } else { (Writes::new(alloc), unanswered) };
        let parted = Parted { file_id, access, share, handles: handles.count(), writes };
        parted.offline(others)
    }
}
