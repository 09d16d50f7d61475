// Made by tools/plain_rust from crates/machines_c/src/manager/managing.rt. Changes belong there.

use std::prelude::Vec;

use crate::proved::machines_c::manager::coming::Coming;
use crate::proved::machines_c::manager::listed::Listed;
use crate::proved::machines_c::manager::numbering::note_all;
use smblease::proved::break_timers::{BreakNo, BreakTimers};
use smblease::proved::lease_manager::{Ask, ClientNo, Decision, Extent, FileNo, LeaseName, Manager, Tag};
use smblease::proved::lease_state::{FileId, LeaseKey, LeaseState, Memory};
use smblease::proved::waiting_changes::{Change, WaitingChanges};
use std::alloc::Global;

/// A manager, the changes that wait, the decisions of its last call, the timers of breaks, and what was listed since.
#[derive(Debug)]
pub struct Managing {
    pub manager: Manager,
    pub changes: WaitingChanges,
    pub decisions: Vec<Decision>,
    pub timers: BreakTimers,
    /// Of each decision, the number of the timer that it starts, or 0.
    pub numbers: Vec<u64>,
    pub listed: Listed,
}

impl Managing {
    // Timers start and stop as the decisions of the call say.
    fn note(&mut self) -> Result<(), Memory> {
        self.numbers.clear();
        note_all(&mut self.timers, &self.decisions, &mut self.numbers)
    }

    // What waits is tried again after a call that was about these files, and then timers start and stop as all decisions say.
    fn finish(&mut self, request: Option<(ClientNo, Tag)>, files: &[FileNo]) -> Result<(), Memory> {
        if self.is_about_changes(files) {
            self.changes.try_again(&mut self.manager, request, files, &mut self.decisions)?;
        }
        self.note()
    }

    // Whether a change waits, and may go on by a call that was about these files.
    fn is_about_changes(&self, files: &[FileNo]) -> bool {
        !self.changes.is_empty() && !(files.is_empty() && self.decisions.is_empty())
    }

    // The same on one file, or on none.
    fn finish_on(&mut self, request: Option<(ClientNo, Tag)>, file: Option<FileNo>) -> Result<(), Memory> {
        match file {
            Some(file) => self.finish(request, &[file]),
            None => self.finish(request, &[]),
        }
    }

    /// Something comes.
    pub(crate) fn call(&mut self, alloc: Global, coming: Coming) -> Result<(), Memory> {
        match coming {
            Coming::Joins(client) => self.join(alloc, client),
            Coming::Asks(client, tag, ask) => self.ask(alloc, client, tag, ask),
            Coming::Acknowledges(client, key, state) => self.acknowledge(alloc, client, key, state),
            Coming::IsMalformed(client) => self.acknowledge_malformed(alloc, client),
            Coming::IsCut(client) => self.cut(alloc, client),
            Coming::Expires(client, key) => self.expire(alloc, client, key),
            Coming::RunsOut(number) => self.run_out(alloc, number),
            Coming::Scavenges(fid) => self.scavenge(alloc, fid),
            Coming::Withdraws(file, client, tag) => self.withdraw(alloc, file, client, tag),
            Coming::GivesUp(client, key, file, extent) => self.give_up(alloc, client, key, file, extent),
            Coming::Changes(one) => self.change(alloc, one),
        }
    }

    // A client connects.
    fn join(&mut self, alloc: Global, client: ClientNo) -> Result<(), Memory> {
        self.listed = Listed::nothing(alloc);
        self.decisions = Vec::new(alloc);
        self.manager.join(client)?;
        self.finish_on(None, None)
    }

    // A client asks something of a file, under a tag.
    fn ask(&mut self, alloc: Global, client: ClientNo, tag: Tag, ask: Ask) -> Result<(), Memory> {
        let file = self.file_closed(client, ask);
        self.listed = Listed::nothing(alloc);
        self.manager.ask(client, tag, ask, &mut self.decisions)?;
        self.finish_on(Some((client, tag)), file)
    }

    // A client acknowledges a break of its lease of this key, with this state.
    fn acknowledge(&mut self, alloc: Global, client: ClientNo, key: LeaseKey, state: LeaseState) -> Result<(), Memory> {
        let file = self.file_acknowledged(client, key);
        self.listed = Listed::nothing(alloc);
        self.manager.acknowledge(client, key, state, &mut self.decisions)?;
        self.finish_on(None, file)
    }

    // A client sends an acknowledgment that can't be read.
    fn acknowledge_malformed(&mut self, alloc: Global, client: ClientNo) -> Result<(), Memory> {
        self.listed = Listed::nothing(alloc);
        self.manager.acknowledge_malformed(client, &mut self.decisions)?;
        self.finish_on(None, None)
    }

    // A client's connection is lost.
    fn cut(&mut self, alloc: Global, client: ClientNo) -> Result<(), Memory> {
        let files = self.files_opened(alloc, client)?;
        self.listed = Listed::nothing(alloc);
        self.changes.forget(client);
        self.manager.cut(client, &mut self.decisions)?;
        self.finish(None, &files)
    }

    // The timer of the break of a client's lease runs out.
    fn expire(&mut self, alloc: Global, client: ClientNo, key: LeaseKey) -> Result<(), Memory> {
        let file = self.file_breaking(client, key);
        self.listed = Listed::nothing(alloc);
        self.timers.stop(LeaseName { client, bytes: key });
        self.manager.expire(client, key, &mut self.decisions)?;
        self.finish_on(None, file)
    }

    // The timer of this number, of a break, runs out.
    fn run_out(&mut self, alloc: Global, number: BreakNo) -> Result<(), Memory> {
        match self.timers.run_out(number) {
            Some(key) => self.end(alloc, key),
            None => {
                self.listed = Listed::nothing(alloc);
                self.decisions.clear();
                self.finish_on(None, None)
            }
        }
    }

    // The break of this lease ends, whose timer is gone.
    fn end(&mut self, alloc: Global, key: LeaseName) -> Result<(), Memory> {
        let file = self.file_breaking(key.client, key.bytes);
        self.listed = Listed::nothing(alloc);
        self.manager.expire(key.client, key.bytes, &mut self.decisions)?;
        self.finish_on(None, file)
    }

    // The timer of a durable open runs out.
    fn scavenge(&mut self, alloc: Global, fid: FileId) -> Result<(), Memory> {
        let file = self.file_left(fid);
        self.listed = Listed::nothing(alloc);
        self.manager.scavenge(fid, &mut self.decisions)?;
        self.finish_on(None, file)
    }

    // What waits on the file under the tag is taken back.
    fn withdraw(&mut self, alloc: Global, file: FileNo, client: ClientNo, tag: Tag) -> Result<(), Memory> {
        let waited_on = self.file_waited_on(file, client, tag);
        self.listed = Listed::nothing(alloc);
        self.manager.withdraw(file, client, tag, &mut self.decisions)?;
        if self.changes.is_waiting(file, client, tag) {
            self.changes.withdraw(file, client, tag);
            self.decisions.push(Decision::Withdrawn { client, tag })?;
        }
        self.finish_on(None, waited_on)
    }

    // Other keys on a file are to give up what they hold.
    fn give_up(
        &mut self,
        alloc: Global,
        client: ClientNo,
        key: Option<LeaseKey>,
        file: FileNo,
        extent: Extent,
    ) -> Result<(), Memory> {
        self.listed = Listed::nothing(alloc);
        self.manager.give_up(client, key, file, extent, &mut self.decisions)?;
        self.finish_on(None, Some(file))
    }

    // A change is asked for that no open of a client asks for.
    fn change(&mut self, alloc: Global, one: Change) -> Result<(), Memory> {
        self.listed = Listed::nothing(alloc);
        self.changes.change(&mut self.manager, one, &mut self.decisions)?;
        self.note()
    }

    /// A client leaves some of its opens, and what it asked under these tags.
    pub(crate) fn leave(&mut self, alloc: Global, client: ClientNo, file_ids: &[FileId], tags: &[Tag]) -> Result<(), Memory> {
        let files = self.files_opened(alloc, client)?;
        self.listed = Listed::nothing(alloc);
        self.changes.leave(client, tags);
        self.manager.leave(client, file_ids, tags, &mut self.decisions)?;
        self.finish(None, &files)
    }
}
