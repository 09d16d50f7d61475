// Made by tools/plain_rust from crates/lease_manager/src/tables/queues.rt. Changes belong there.

use std::prelude::Vec;

use crate::proved::lease_manager::tables::queue::Queue;
use crate::proved::lease_manager::values::number::{ClientNo, FileNo, Tag};
use crate::proved::lease_manager::values::open::OpenEntry;
use crate::proved::lease_manager::values::request::Held;
use crate::proved::lease_state::Memory;
use std::alloc::Global;
use std::collections::BTreeMap;

mod listing;

/// What waits on each file, in order of arrival.
#[derive(Debug)]
pub struct Queues {
    /// Of the files where something waits.
    by_file: BTreeMap<FileNo, Queue>,
}

impl Queues {
    /// Nothing waits. Allocates nothing.
    pub fn new(alloc: Global) -> Queues {
        Queues { by_file: BTreeMap::new(alloc) }
    }

    /// What waits on the file, in order of arrival.
    pub fn at(&self, file: FileNo) -> &[Held] {
        match self.by_file.get(&file) {
            Some(queue) => queue.as_slice(),
            None => &[],
        }
    }

    /// The request waits on the file after the others.
    ///
    /// # Errors
    ///
    /// `Memory` where there is none left for it; nothing has changed then.
    pub fn push(&mut self, alloc: Global, file: FileNo, one: Held) -> Result<(), Memory> {
        match self.by_file.get_mut(&file) {
            Some(queue) => queue.push(one),
            None => {
                let mut queue = Queue::new(alloc);
                queue.push(one)?;
                self.by_file.insert(file, queue)?;
                Ok(())
            }
        }
    }

    /// The request at this place of the file's queue no longer waits.
    pub fn remove(&mut self, file: FileNo, place: usize) {
        self.removed(file, place);
        self.tidy(file);
    }

    // The same, and the queue stays, perhaps empty.
    fn removed(&mut self, file: FileNo, place: usize) {
        match self.by_file.get_mut(&file) {
            Some(queue) => queue.remove(place),
            None => {}
        }
    }

    // A file where nothing waits has no queue.
    fn tidy(&mut self, file: FileNo) {
        if self.at(file).is_empty() {
            self.by_file.remove(&file);
        }
    }

    /// Whether a request of the client waits on the file.
    pub fn has_of(&self, file: FileNo, client: ClientNo) -> bool {
        match self.by_file.get(&file) {
            Some(queue) => queue.has_of(client),
            None => false,
        }
    }

    /// The requests of the client no longer wait on the file.
    pub fn forget(&mut self, file: FileNo, client: ClientNo) {
        self.forgotten(file, client);
        self.tidy(file);
    }

    // The same, and the queue stays, perhaps empty.
    fn forgotten(&mut self, file: FileNo, client: ClientNo) {
        match self.by_file.get_mut(&file) {
            Some(queue) => queue.forget(client),
            None => {}
        }
    }

    /// The requests of the client under the tag no longer wait on the file.
    pub fn withdraw(&mut self, file: FileNo, client: ClientNo, tag: Tag) {
        self.withdrawn(file, client, tag);
        self.tidy(file);
    }

    // The same, and the queue stays, perhaps empty.
    fn withdrawn(&mut self, file: FileNo, client: ClientNo, tag: Tag) {
        match self.by_file.get_mut(&file) {
            Some(queue) => queue.withdraw(client, tag),
            None => {}
        }
    }

    /// The requests of the client under these tags no longer wait on the file.
    pub fn leave(&mut self, file: FileNo, client: ClientNo, tags: &[Tag]) {
        self.left(file, client, tags);
        self.tidy(file);
    }

    // The same, and the queue stays, perhaps empty.
    fn left(&mut self, file: FileNo, client: ClientNo, tags: &[Tag]) {
        match self.by_file.get_mut(&file) {
            Some(queue) => queue.leave(client, tags),
            None => {}
        }
    }

    /// The numbers of the files where something waits, rising.
    ///
    /// # Errors
    ///
    /// `Memory` where there is none left for the list.
    pub fn files(&self, alloc: Global) -> Result<Vec<FileNo>, Memory> {
        let mut files = Vec::new(alloc);
        for file in self.by_file.keys() {
            files.push(*file)?;
        }
        Ok(files)
    }

    /// Of those the ones up to the last that is a file's.
    ///
    /// # Errors
    ///
    /// `Memory` where there is none left for the list.
    pub fn waiting_files(&self, alloc: Global, last: FileNo) -> Result<Vec<FileNo>, Memory> {
        let mut files = Vec::new(alloc);
        for file in self.by_file.keys() {
            if file.is_file(last) {
                files.push(*file)?;
            }
        }
        Ok(files)
    }

    /// Whether a create waits, on any file, under the key of the open.
    pub fn ask_with(&self, one: &OpenEntry) -> bool {
        for queue in self.by_file.values() {
            if queue.asks_with(one) {
                return true;
            }
        }
        false
    }
}
