// Made by tools/plain_rust from crates/lease_world/src/judging/file.rt. Changes belong there.

use std::prelude::Vec;

use crate::proved::lease_state::{Bytes, ClientNo, Memory, Patch};
use crate::proved::lease_world::judging::marks::{Mark, is_far, last_before, leave_marks};
use crate::proved::lease_world::judging::snapshot::Snapshot;
use std::alloc::Global;

/// A change of a file: its place in the record, counted from 1, and its patch.
#[derive(Debug)]
pub struct Change {
    pub place: u64,
    pub patch: Patch,
}

/// Which client opened or changed a file last, and where; and where another client did so last. 0 is nowhere.
#[derive(Clone, Copy, Debug)]
pub struct Touches {
    client: ClientNo,
    place: u64,
    by_others: u64,
}

impl Touches {
    /// Of a file that nobody opened or changed.
    pub fn none() -> Touches {
        Touches { client: ClientNo(0), place: 0, by_others: 0 }
    }

    /// After the client opened or changed the file at this place.
    pub fn with(self, client: ClientNo, place: u64) -> Touches {
        if client == self.client { Touches { place, ..self } } else { Touches { client, place, by_others: self.place } }
    }

    /// Where another client than this one opened or changed the file last.
    pub fn by_others(self, client: ClientNo) -> u64 {
        if client == self.client { self.by_others } else { self.place }
    }
}

/// What a judge keeps of a file: the bytes with which it was started, its changes in order, and its touches.
#[derive(Debug)]
pub struct FileSeen {
    start: Option<Bytes>,
    changes: Vec<Change>,
    touches: Touches,
    /// In the order of their places.
    marks: Vec<Mark>,
}

impl FileSeen {
    /// Of a file that no fact named. Allocates nothing.
    pub fn new(alloc: Global) -> FileSeen {
        FileSeen { start: None, changes: Vec::new(alloc), touches: Touches::none(), marks: Vec::new(alloc) }
    }

    /// Whether the file was started.
    pub fn is_started(&self) -> bool {
        self.start.is_some()
    }

    /// The file is started with these bytes.
    pub fn start(&mut self, bytes: Bytes) {
        self.start = Some(bytes);
        self.marks.clear();
    }

    /// A client opened the file at this place.
    pub fn open(&mut self, client: ClientNo, place: u64) {
        self.touches = self.touches.with(client, place);
    }

    /// A client changed the file at this place.
    ///
    /// # Errors
    ///
    /// `Memory` where there is none left for the list of changes.
    pub fn change(&mut self, client: ClientNo, place: u64, patch: Patch) -> Result<(), Memory> {
        self.changes.push(Change { place, patch })?;
        self.touches = self.touches.with(client, place);
        Ok(())
    }

    /// Where another client than this one opened or changed the file last.
    pub fn touched_by_others(&self, client: ClientNo) -> u64 {
        self.touches.by_others(client)
    }

    /// The bytes with which the file was started, in memory of their own; no bytes where it wasn't.
    ///
    /// # Errors
    ///
    /// `Memory` where there is none left.
    pub fn first(&self) -> Result<Snapshot, Memory> {
        match &self.start {
            Some(bytes) => Snapshot::of(bytes),
            None => Snapshot::of(&Bytes::new(Vec::new(*self.changes.allocator()))),
        }
    }

    /// The changes, in order.
    pub fn changes(&self) -> &[Change] {
        self.changes.as_slice()
    }

    /// A snapshot of the file from which fewer changes lead to the place, where they are many: this one, or a copy of a mark.
    /// Leaves marks on the way there.
    ///
    /// # Errors
    ///
    /// `Memory` where there is none left for a mark or for a copy.
    pub fn nearer(&mut self, base: Snapshot, place: u64) -> Result<Snapshot, Memory> {
        if !is_far(&base, &self.changes, place) {
            return Ok(base);
        }
        self.mark(place)?;
        match last_before(&self.marks, place) {
            Some(mark) if mark.applied() > base.applied() => mark.try_copy(),
            _ => Ok(base),
        }
    }

    // Leaves marks on the way from the last one to the place.
    fn mark(&mut self, place: u64) -> Result<(), Memory> {
        let last = match self.marks.last() {
            Some(mark) => mark.try_copy()?,
            None => Mark::first(self.first()?),
        };
        leave_marks(&mut self.marks, &self.changes, last, place)
    }
}
