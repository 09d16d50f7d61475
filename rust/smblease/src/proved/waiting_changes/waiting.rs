// Made by tools/plain_rust from crates/waiting_changes/src/waiting.rt. Changes belong there.

use std::prelude::Vec;

use crate::proved::lease_manager::{ClientNo, FileNo, Manager, Tag};
use crate::proved::lease_state::Memory;
use crate::proved::waiting_changes::change::Change;
use std::alloc::Global;

/// The changes that wait, in order of arrival.
#[derive(Debug)]
pub struct WaitingChanges {
    waiting: Vec<Change>,
}

impl WaitingChanges {
    /// None waits. Allocates nothing.
    pub fn new(alloc: Global) -> WaitingChanges {
        WaitingChanges { waiting: Vec::new(alloc) }
    }

    /// All of them, in order of arrival.
    pub fn as_slice(&self) -> &[Change] {
        self.waiting.as_slice()
    }

    /// Whether none waits.
    pub fn is_empty(&self) -> bool {
        self.waiting.is_empty()
    }

    /// Whether one of the client's waits on the file under the tag.
    pub fn is_waiting(&self, file: FileNo, client: ClientNo, tag: Tag) -> bool {
        self.waiting.iter().any(|one| one.is_under(file, client, tag))
    }

    // The file of each.
    pub(crate) fn files(&self, alloc: Global) -> Result<Vec<FileNo>, Memory> {
        let mut files = Vec::new(alloc);
        for one in self.as_slice() {
            files.push(one.file)?;
        }
        Ok(files)
    }

    // It waits after the others.
    pub(crate) fn push(&mut self, one: Change) -> Result<(), Memory> {
        self.waiting.push(one)?;
        Ok(())
    }

    // Those on the file that nothing is in the way of wait no longer.
    pub(crate) fn let_go(&mut self, file: FileNo, manager: &Manager) {
        let_go(&mut self.waiting, file, manager);
    }

    /// Those of the client on the file under the tag are taken back (MS-SMB2 3.3.5.16).
    pub fn withdraw(&mut self, file: FileNo, client: ClientNo, tag: Tag) {
        withdraw(&mut self.waiting, file, client, tag);
    }

    /// The client's connection is gone, and nothing that it asked for waits any longer (MS-SMB2 3.3.7.1).
    pub fn forget(&mut self, client: ClientNo) {
        forget(&mut self.waiting, client);
    }

    /// What the client asked for under these tags waits no longer: their connection or session goes (MS-SMB2 3.3.5.6).
    pub fn leave(&mut self, client: ClientNo, tags: &[Tag]) {
        leave(&mut self.waiting, client, tags);
    }
}

// Those on the file that nothing is in the way of are taken out.
fn let_go(waiting: &mut Vec<Change>, file: FileNo, manager: &Manager) {
    waiting.retain(|one| !one.goes(file, manager));
}

// Those of the client on the file under the tag are taken out.
fn withdraw(waiting: &mut Vec<Change>, file: FileNo, client: ClientNo, tag: Tag) {
    waiting.retain(|one| !one.is_under(file, client, tag));
}

// Those of the client are taken out.
fn forget(waiting: &mut Vec<Change>, client: ClientNo) {
    waiting.retain(|one| one.client != client);
}

// Those of the client under these tags are taken out.
fn leave(waiting: &mut Vec<Change>, client: ClientNo, tags: &[Tag]) {
    waiting.retain(|one| !(one.client == client && is_among(tags, one.tag)));
}

// Whether the tag is one of these.
fn is_among(tags: &[Tag], tag: Tag) -> bool {
    is_any(tags, tag)
}

fn is_any(tags: &[Tag], tag: Tag) -> bool {
    tags.iter().any(|other| tag == *other)
}
