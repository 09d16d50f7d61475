// Made by tools/plain_rust from crates/lease_client/src/entry/created.rt. Changes belong there.

use std::prelude::Vec;

use crate::proved::lease_client::entry::handles::Handles;
use crate::proved::lease_client::entry::turn::{Given, Turn};
use crate::proved::lease_client::entry::{Asked, Entry, Live, Parted, Phase};
use crate::proved::lease_client::file::File;
use crate::proved::lease_client::requests;
use crate::proved::lease_client::values::command::Answer;
use crate::proved::lease_client::values::note::Settlement;
use crate::proved::lease_client::writes::push_settled;
use crate::proved::lease_client::writes::queue::Writes;
use crate::proved::lease_state::{FileId, LeaseKey, LeaseState, Memory, Status};
use crate::proved::lease_wire::CreateAnswer;

/// The RqLs context of a response: key, state, and whether a break is in progress.
type Granted = Option<(LeaseKey, LeaseState, bool)>;

impl Entry {
    /// The entry's create is answered (MS-SMB2 3.2.5.7). An entry without one passes it over.
    ///
    /// # Errors
    ///
    /// `Memory` where there is none left for what is sent or noted.
    pub fn created(&mut self, key: LeaseKey, file_id: FileId, answer: &CreateAnswer, given: &mut Given) -> Result<(), Memory> {
        let Entry { phase, sent } = self.take();
        match phase {
            Phase::Opening { access, share } => {
                let belief = first_belief(key, answer.lease);
                let asked = Asked { access, share };
                opened(file_id, asked, sent, answer, belief).put_into(self, given);
                Ok(())
            }
            Phase::Reconnecting(parted) => {
                let belief = first_belief(key, answer.lease);
                parted.connected(sent, belief)?.put_into(self, given);
                Ok(())
            }
            Phase::Live(live) => {
                live.created(sent, key, file_id, answer)?.put_into(self, given);
                Ok(())
            }
            phase => {
                self.put_back(phase, sent);
                given.begin(Answer::Quiet);
                Ok(())
            }
        }
    }

    /// The entry's create is refused. An entry without one passes it over.
    ///
    /// # Errors
    ///
    /// `Memory` where there is none left for what is noted.
    pub fn not_created(&mut self, status: Status, given: &mut Given) -> Result<(), Memory> {
        let Entry { phase, sent } = self.take();
        match phase {
            Phase::Opening { .. } => {
                let turn = Turn::still(Entry::shut(sent), Answer::Failed(status));
                turn.put_into(self, given);
                Ok(())
            }
            Phase::Reconnecting(parted) => {
                parted.given_up(sent, status)?.put_into(self, given);
                Ok(())
            }
            Phase::Live(live) => {
                live.not_created(sent, status).put_into(self, given);
                Ok(())
            }
            phase => {
                self.put_back(phase, sent);
                given.begin(Answer::Quiet);
                Ok(())
            }
        }
    }
}

// What an entry that believed nothing believes: the state of the reply, or nothing while a break is in
// progress, without RqLs, or under another key.
fn first_belief(key: LeaseKey, lease: Granted) -> LeaseState {
    match lease {
        Some((given, state, breaking)) if given == key && !breaking => state,
        _ => LeaseState::NONE,
    }
}

// What an entry that asked for more believes: what it believed while a break is in progress, and else
// the state of the reply, or nothing without RqLs or under another key.
// docs/DECISIONS.md: "A Created while asking".
fn promoted_belief(key: LeaseKey, belief: LeaseState, lease: Granted) -> LeaseState {
    match lease {
        Some((_, _, true)) => belief,
        Some((given, state, false)) if given == key => state,
        _ => LeaseState::NONE,
    }
}

// A new open has one handle and no base.
fn opened(file_id: FileId, asked: Asked, sent: Writes, answer: &CreateAnswer, belief: LeaseState) -> Turn {
    let live = Live {
        file_id,
        access: asked.access,
        share: asked.share,
        durable: answer.durable,
        belief,
        handles: Handles::of(1),
        reads: 0,
        file: File::unknown(Writes::new(sent.alloc())),
    };
    Turn::still(Entry::live(live, sent), Answer::Done)
}

impl Parted {
    // The open is connected again, without a base. The kept writes are unsent again under W, and else
    // given up.
    // docs/DECISIONS.md: "A reconnect keeps its own FileId".
    fn connected(self, sent: Writes, belief: LeaseState) -> Result<Turn, Memory> {
        let alloc = sent.alloc();
        let mut unsent = self.writes;
        let mut notes = Vec::new(alloc);
        if !belief.caches_writes() {
            push_settled(&mut notes, Settlement::Lost, &unsent)?;
            unsent.clear();
        }
        let live = Live {
            file_id: self.file_id,
            access: self.access,
            share: self.share,
            durable: true,
            belief,
            handles: Handles::of(self.handles),
            reads: 0,
            file: File::unknown(unsent),
        };
        Ok(Turn { entry: Entry::live(live, sent), answer: Answer::Done, requests: Vec::new(alloc), notes })
    }

    // The open can't be connected again, and the kept writes are given up.
    fn given_up(self, sent: Writes, status: Status) -> Result<Turn, Memory> {
        let alloc = sent.alloc();
        let mut notes = Vec::new(alloc);
        push_settled(&mut notes, Settlement::Lost, &self.writes)?;
        Ok(Turn { entry: Entry::shut(sent), answer: Answer::Failed(status), requests: Vec::new(alloc), notes })
    }
}

impl Live {
    // A live entry is answered only where it asked for more.
    fn created(self, sent: Writes, key: LeaseKey, file_id: FileId, answer: &CreateAnswer) -> Result<Turn, Memory> {
        match self.handles.asking() {
            Some(asked) => {
                let belief = promoted_belief(key, self.belief, answer.lease);
                self.promoted(sent, asked, file_id, answer.durable, belief)
            }
            None => Ok(Turn::still(Entry::live(self, sent), Answer::Quiet)),
        }
    }

    // The entry has its new open, and closes the old one. Without W its unsent writes have failed, and
    // without R the base is dropped.
    fn promoted(self, sent: Writes, asked: Asked, file_id: FileId, durable: bool, belief: LeaseState) -> Result<Turn, Memory> {
        let alloc = sent.alloc();
        let mut live = self;
        let mut requests = Vec::new(alloc);
        requests.push(requests::close(live.file_id))?;
        let mut notes = Vec::new(alloc);
        if !belief.caches_writes() {
            push_settled(&mut notes, Settlement::Failed, live.file.unsent())?;
            live.file.give_up_unsent();
        }
        live.file_id = file_id;
        live.access = asked.access;
        live.share = asked.share;
        live.durable = durable;
        live.handles = live.handles.with_granted();
        live.believe(belief);
        Ok(Turn { entry: Entry::live(live, sent), answer: Answer::Done, requests, notes })
    }

    // An entry that asked for more goes on without.
    fn not_created(self, sent: Writes, status: Status) -> Turn {
        let mut live = self;
        match live.handles.asking() {
            Some(_) => {
                live.handles = live.handles.with_refused();
                Turn::still(Entry::live(live, sent), Answer::Failed(status))
            }
            None => Turn::still(Entry::live(live, sent), Answer::Quiet),
        }
    }
}
