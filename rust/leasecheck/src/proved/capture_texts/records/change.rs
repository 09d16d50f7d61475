// Made by tools/plain_rust from crates/capture_texts/src/records/change.rt. Changes belong there.

use std::prelude::Vec;

use crate::proved::capture_judge::Level;
use crate::proved::capture_texts::finding::{Belief, FileFinding};
use smblease::proved::lease_state::{ClientNo, FileNo, Memory};
use std::alloc::Global;

/// A change of what a client caches, by the numbers of the record; and where it was found.
#[derive(Clone, Copy, Debug)]
pub(crate) struct Change {
    pub(crate) position: u64,
    pub(crate) file: FileNo,
    pub(crate) client: ClientNo,
    pub(crate) level: Level,
    // The places of the finding, and of the belief in it.
    pub(crate) finding: usize,
    pub(crate) belief: usize,
}

// The place of a client among those of the record.
fn place_of(clients: &[u64], client: u64) -> Option<usize> {
    clients.iter().position(|one| *one == client)
}

// The changes of a file with this number, whose finding has this place.
fn push_changes(changes: &mut Vec<Change>, clients: &[u64], file: u8, finding: usize, beliefs: &[Belief]) -> Result<(), Memory> {
    for (belief, one) in beliefs.iter().enumerate() {
        if let Some(place) = place_of(clients, one.client) {
            changes.push(Change {
                position: one.position,
                file: FileNo(file),
                client: ClientNo(place as u8 + 1),
                level: one.level,
                finding,
                belief,
            })?;
        }
    }
    Ok(())
}

/// The changes of the files whose findings have these places, file by file.
pub(crate) fn changes_of(
    alloc: Global,
    files: &[FileFinding],
    clients: &[u64],
    findings: &[usize],
) -> Result<Vec<Change>, Memory> {
    let mut changes = Vec::new(alloc);
    for (index, finding) in findings.iter().enumerate() {
        if let Some(file) = files.get(*finding) {
            push_changes(&mut changes, clients, index as u8 + 1, *finding, file.beliefs.as_slice())?;
        }
    }
    Ok(changes)
}
