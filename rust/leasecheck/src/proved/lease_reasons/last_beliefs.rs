// Made by tools/plain_rust from crates/lease_reasons/src/last_beliefs.rt. Changes belong there.

use std::prelude::Vec;

use crate::proved::lease_reasons::reason::Belief;
use smblease::proved::lease_facts::Fact;
use smblease::proved::lease_state::{ClientNo, FileNo, Memory};
use std::alloc::Global;

/// The last beliefs of a file, one of each client that noted some.
#[derive(Debug)]
pub struct FileBeliefs {
    // By the numbers of clients.
    cells: Vec<Option<Belief>>,
}

impl FileBeliefs {
    /// Of no client. Allocates nothing.
    pub fn new(alloc: Global) -> FileBeliefs {
        FileBeliefs { cells: Vec::new(alloc) }
    }

    /// The beliefs by the numbers of clients.
    pub fn as_slice(&self) -> &[Option<Belief>] {
        self.cells.as_slice()
    }

    // Whether no client noted one.
    fn is_empty(&self) -> bool {
        self.cells.is_empty()
    }

    // The belief stands in place of an earlier one of its client.
    fn put(&mut self, belief: Belief) -> Result<(), Memory> {
        reach_client(&mut self.cells, belief.client)?;
        self.cells[usize::from(belief.client.0)] = Some(belief);
        Ok(())
    }
}

/// The last beliefs that facts report, by files and clients.
#[derive(Debug)]
pub struct LastBeliefs {
    /// The files of which some client noted a belief, in the order in which they come.
    pub files: Vec<FileNo>,
    // By the numbers of files.
    rows: Vec<FileBeliefs>,
}

impl LastBeliefs {
    /// Those of these facts.
    ///
    /// # Errors
    ///
    /// `Memory` where there is none left for the beliefs.
    pub fn of(alloc: Global, facts: &[Fact]) -> Result<LastBeliefs, Memory> {
        let mut beliefs = LastBeliefs { files: Vec::new(alloc), rows: Vec::new(alloc) };
        for (index, fact) in facts.iter().enumerate() {
            beliefs.note(fact, index + 1)?;
        }
        Ok(beliefs)
    }

    // Takes note of the fact at this place.
    fn note(&mut self, fact: &Fact, place: usize) -> Result<(), Memory> {
        match fact {
            Fact::Believes(client, file, state) => self.put(*file, Belief { client: *client, place, state: *state }),
            _ => Ok(()),
        }
    }

    // The belief is the last of its client.
    fn put(&mut self, file: FileNo, belief: Belief) -> Result<(), Memory> {
        reach_file(&mut self.rows, file)?;
        let row = &mut self.rows[usize::from(file.0)];
        let is_first = row.is_empty();
        row.put(belief)?;
        if is_first {
            self.files.push(file)?;
        }
        Ok(())
    }

    /// The beliefs of a file, by the numbers of clients.
    pub fn of_file(&self, file: FileNo) -> &[Option<Belief>] {
        match self.rows.get(usize::from(file.0)) {
            Some(row) => row.as_slice(),
            None => &[],
        }
    }
}

// Makes a place for the belief of the client.
fn reach_client(cells: &mut Vec<Option<Belief>>, client: ClientNo) -> Result<(), Memory> {
    while cells.len() <= usize::from(client.0) {
        cells.push(None)?;
    }
    Ok(())
}

// Makes a place for the beliefs of the file.
fn reach_file(rows: &mut Vec<FileBeliefs>, file: FileNo) -> Result<(), Memory> {
    let alloc = *rows.allocator();
    while rows.len() <= usize::from(file.0) {
        rows.push(FileBeliefs::new(alloc))?;
    }
    Ok(())
}
