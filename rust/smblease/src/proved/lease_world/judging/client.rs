// Made by tools/plain_rust from crates/lease_world/src/judging/client.rt. Changes belong there.

use crate::proved::lease_state::{FileNo, LeaseState, Memory, Patch};
use crate::proved::lease_world::judging::cache::CacheSeen;
use crate::proved::lease_world::judging::caches::Caches;
use crate::proved::lease_world::judging::file::FileSeen;
use crate::proved::lease_world::judging::numbers::Numbers;
use crate::proved::lease_world::judging::writes::{WriteSeen, WritesSeen};
use std::alloc::Global;
use std::collections::VecDeque;

/// What a judge keeps of a client.
#[derive(Debug)]
pub struct ClientSeen {
    joined: bool,
    /// It joined, and neither was its connection lost nor did a timer of its run out since.
    served: bool,
    strayed: bool,
    /// The places of the messages that were sent to it since it joined, and not taken.
    sent: VecDeque<u64>,
    /// The place of the sending of the message that it took last.
    taken: u64,
    /// It took a message since it joined.
    has_taken: bool,
    writes: WritesSeen,
    /// The numbers of writes that were settled.
    settled: Numbers,
    /// By the numbers of files.
    caches: Caches,
}

impl ClientSeen {
    /// Of a client that no fact named. Allocates nothing.
    pub fn new(alloc: Global) -> ClientSeen {
        ClientSeen {
            joined: false,
            served: false,
            strayed: false,
            sent: VecDeque::new(alloc),
            taken: 0,
            has_taken: false,
            writes: WritesSeen::new(alloc),
            settled: Numbers::new(alloc),
            caches: Caches::new(alloc),
        }
    }

    /// Whether the client is served, and never strayed.
    pub fn is_good(&self) -> bool {
        !self.strayed && self.served
    }

    /// Whether the client ever strayed: whether a request was sent in its name that its machine
    /// didn't make.
    pub fn has_strayed(&self) -> bool {
        self.strayed
    }

    /// The place of the sending of the message that the client took last; `None` where it took none since it joined.
    pub fn taken(&self) -> Option<u64> {
        self.has_taken.then_some(self.taken)
    }

    /// The client joins.
    pub fn join(&mut self) {
        self.joined = true;
        self.served = true;
        self.sent.clear();
        self.has_taken = false;
    }

    /// The client's connection is lost, or a timer of its runs out.
    pub fn leave(&mut self) {
        self.served = false;
    }

    /// The client strays.
    pub fn stray(&mut self) {
        self.strayed = true;
    }

    /// A message is sent to the client at this place.
    ///
    /// # Errors
    ///
    /// `Memory` where there is none left for the list of messages.
    pub fn send(&mut self, place: u64) -> Result<(), Memory> {
        self.sent.push_back(place)?;
        Ok(())
    }

    /// The client takes the oldest message that was sent; whether there was one, since it joined.
    pub fn take(&mut self) -> bool {
        if !self.joined {
            return false;
        }
        match self.sent.pop_front() {
            Some(place) => {
                self.taken = place;
                self.has_taken = true;
                true
            }
            None => false,
        }
    }

    /// Whether the client was given a write of this number.
    pub fn has_number(&self, number: u64) -> bool {
        self.writes.get(number).is_some()
    }

    /// Whether the client's buffered write of this number, on this file, stands before the place.
    pub fn has_buffered(&self, file: FileNo, number: u64, place: u64) -> bool {
        match self.writes.get(number) {
            Some(write) => write.buffered && write.file == file && write.place < place,
            None => false,
        }
    }

    /// Whether the client's write of this number was accepted.
    pub fn is_accepted(&self, number: u64) -> bool {
        match self.writes.get(number) {
            Some(write) => write.accepted,
            None => false,
        }
    }

    /// A file is changed by the client's write of this number.
    pub fn accept(&mut self, file: FileNo, number: u64, patch: &Patch) {
        self.writes.accept(file, number, patch);
    }

    /// The client is given a write at this place.
    ///
    /// # Errors
    ///
    /// `Memory` where there is none left for it.
    pub fn write(&mut self, number: u64, write: WriteSeen) -> Result<(), Memory> {
        // A write that was settled before covers nothing.
        if !self.settled.contains(number) {
            let patch = write.patch.try_copy()?;
            self.caches.get_mut(write.file)?.write(number, patch)?;
        }
        self.writes.insert(number, write)
    }

    /// The client learns what became of its write of this number.
    ///
    /// # Errors
    ///
    /// `Memory` where there is none left for the list of such numbers.
    pub fn settle(&mut self, number: u64) -> Result<(), Memory> {
        self.settled.insert(number)
    }

    /// What is kept of its files, by their numbers.
    pub fn caches(&self) -> &[CacheSeen] {
        self.caches.as_slice()
    }

    /// What the client believes of a file's lease.
    pub fn belief(&self, file: FileNo) -> LeaseState {
        match self.caches().get(usize::from(file.0)) {
            Some(cache) => cache.belief(),
            None => LeaseState::NONE,
        }
    }

    /// The client believes this of a file's lease from now on.
    ///
    /// # Errors
    ///
    /// `Memory` where there is none left for what is kept of the file.
    pub fn believe(&mut self, file: FileNo, state: LeaseState) -> Result<(), Memory> {
        self.caches.get_mut(file)?.believe(state);
        Ok(())
    }

    /// Whether the client sees these bytes in a file: the file as it stood before the place, with the client's unanswered
    /// writes.
    ///
    /// # Errors
    ///
    /// `Memory` where there is none left for what the client sees.
    pub fn sees(&mut self, number: FileNo, file: &mut FileSeen, place: u64, bytes: &[u8]) -> Result<bool, Memory> {
        let cache = self.caches.get_mut(number)?;
        cache.shows(file, place, &self.settled, bytes)
    }
}
