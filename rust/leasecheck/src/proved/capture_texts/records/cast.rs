// Made by tools/plain_rust from crates/capture_texts/src/records/cast.rt. Changes belong there.

use std::prelude::Vec;

use crate::proved::capture_texts::finding::{ClientName, FileFinding, Judged};
use smblease::proved::lease_state::Memory;
use std::alloc::Global;

/// The most files, and the most clients, that a record can name.
pub const MOST: usize = 255;

/// Whom a record is of: its clients, by their numbers in the capture, and its files, by the places of their findings.
pub(crate) struct Cast {
    pub(crate) clients: Vec<u64>,
    pub(crate) findings: Vec<usize>,
}

fn is_unsafe(file: &FileFinding) -> bool {
    file.judged.is_unsafe()
}

fn has_unsafe(files: &[FileFinding]) -> bool {
    files.iter().any(is_unsafe)
}

// Whether the record is of the file, by whether it is of unsafe ones.
fn is_wanted(are_unsafe: bool, file: &FileFinding) -> bool {
    match file.judged {
        Judged::Unsafe(_) | Judged::Granted(_) => are_unsafe,
        Judged::Safe => !are_unsafe,
        Judged::NoClient | Judged::Contradictory | Judged::TooMany => false,
    }
}

// How many files the record is of, if there is room.
pub(crate) fn count_wanted(files: &[FileFinding]) -> usize {
    let are_unsafe = has_unsafe(files);
    files.iter().filter(|file| is_wanted(are_unsafe, file)).count()
}

fn has_client(clients: &[u64], client: u64) -> bool {
    clients.iter().any(|one| *one == client)
}

fn note_client(clients: &mut Vec<u64>, client: u64) -> Result<(), Memory> {
    if !has_client(clients.as_slice(), client) {
        clients.push(client)?;
    }
    Ok(())
}

// The clients with those that have these names.
fn clients_with(alloc: Global, known: &[u64], names: &[ClientName]) -> Result<Vec<u64>, Memory> {
    let mut clients = Vec::from_slice(alloc, known)?;
    for name in names {
        note_client(&mut clients, name.number)?;
    }
    Ok(clients)
}

impl Cast {
    // Takes a file, by its place, if there is room for it and its clients.
    fn take(&mut self, alloc: Global, place: usize, file: &FileFinding) -> Result<(), Memory> {
        let clients = clients_with(alloc, self.clients.as_slice(), file.clients.as_slice())?;
        if self.findings.len() < MOST && clients.len() <= MOST {
            self.clients = clients;
            self.findings.push(place)?;
        }
        Ok(())
    }
}

/// Whom the record of these findings is of.
pub(crate) fn cast_of(alloc: Global, files: &[FileFinding]) -> Result<Cast, Memory> {
    let are_unsafe = has_unsafe(files);
    let mut cast = Cast { clients: Vec::new(alloc), findings: Vec::new(alloc) };
    for (place, file) in files.iter().enumerate() {
        if is_wanted(are_unsafe, file) {
            cast.take(alloc, place, file)?;
        }
    }
    Ok(cast)
}
