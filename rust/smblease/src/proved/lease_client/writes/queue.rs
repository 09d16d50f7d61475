// Made by tools/plain_rust from crates/lease_client/src/writes/queue.rt. Changes belong there.

use crate::proved::lease_client::entry::Pending;
use crate::proved::lease_client::values::shared_bytes::SharedBytes;
use crate::proved::lease_client::writes::shown::Shown;
use crate::proved::lease_state::Memory;
use std::alloc::Global;
use std::collections::VecDeque;
use std::mem;

/// Writes that aren't answered, in order.
// docs/DECISIONS.md: "Unanswered writes are a queue".
#[derive(Debug)]
pub struct Writes {
    items: VecDeque<Pending>,
    /// No number is below the one before it, so that numbers can be searched by halves.
    is_rising: bool,
    /// All of them are buffered.
    is_buffered: bool,
    /// What was seen last of a file with them.
    shown: Option<Shown>,
}

impl Writes {
    /// No write. Allocates nothing.
    pub fn new(alloc: Global) -> Writes {
        Writes { items: VecDeque::new(alloc), is_rising: true, is_buffered: true, shown: None }
    }

    /// The allocator of the list.
    pub fn alloc(&self) -> Global {
        *self.items.allocator()
    }

    /// Whether there are none.
    pub fn is_empty(&self) -> bool {
        self.items.is_empty()
    }

    /// The writes, in two parts.
    pub fn as_slices(&self) -> (&[Pending], &[Pending]) {
        self.items.as_slices()
    }

    /// One more write, after the others.
    ///
    /// # Errors
    ///
    /// `Memory` where there is none left for it.
    pub fn push(&mut self, write: Pending) -> Result<(), Memory> {
        let is_rising = self.rises_to(&write);
        let is_buffered = self.is_buffered_with(&write);
        self.items.push_back(write)?;
        self.is_rising = is_rising;
        self.is_buffered = is_buffered;
        Ok(())
    }

    // Whether the numbers rise, up to that of one more write.
    fn rises_to(&self, write: &Pending) -> bool {
        if !self.is_rising {
            return false;
        }
        match self.items.back() {
            Some(last) => last.number <= write.number,
            None => true,
        }
    }

    // Whether all are buffered, and one more write too.
    fn is_buffered_with(&self, write: &Pending) -> bool {
        self.is_buffered && write.buffered
    }

    /// The other writes go after these. Where there are none here, none of the others moves.
    ///
    /// # Errors
    ///
    /// `Memory` where there is none left for them here.
    pub fn append(&mut self, others: &mut Writes) -> Result<(), Memory> {
        if self.is_empty() {
            let alloc = self.alloc();
            *self = mem::replace(others, Writes::new(alloc));
            return Ok(());
        }
        for write in others.take_items() {
            self.push(write)?;
        }
        Ok(())
    }

    // Takes all of the writes out.
    fn take_items(&mut self) -> VecDeque<Pending> {
        let alloc = self.alloc();
        self.shown = None;
        mem::replace(&mut self.items, VecDeque::new(alloc))
    }

    /// The writes are given up. Allocates nothing.
    pub fn clear(&mut self) {
        self.items.clear();
        self.is_rising = true;
        self.is_buffered = true;
        self.shown = None;
    }

    /// Whether a write has this number.
    pub fn has(&self, number: u64) -> bool {
        self.place_of(number).is_some()
    }

    // Where the first write of this number is.
    fn place_of(&self, number: u64) -> Option<usize> {
        if self.is_rising { self.place_by_halves(number) } else { self.items.iter().position(|write| write.number == number) }
    }

    // The same, where the numbers rise.
    fn place_by_halves(&self, number: u64) -> Option<usize> {
        let place = self.items.partition_point(|write| write.number < number);
        match self.items.get(place) {
            Some(write) if write.number == number => Some(place),
            _ => None,
        }
    }

    /// Takes the first write of this number out, if there is one.
    pub fn take_numbered(&mut self, number: u64) -> Option<Pending> {
        match self.place_of(number) {
            Some(place) => self.take_at(place),
            None => None,
        }
    }

    // Takes the write at this place out.
    fn take_at(&mut self, place: usize) -> Option<Pending> {
        let alloc = self.alloc();
        let shown = self.shown.take();
        let write = self.items.remove(place)?;
        self.shown = shown_without(alloc, shown, place, &write);
        Some(write)
    }

    /// The buffered writes, and the others. Where all are buffered, none of them moves.
    ///
    /// # Errors
    ///
    /// `Memory` where there is none left for the lists, and never where all are buffered.
    // docs/DECISIONS.md: "Writes that are kept at a notice".
    pub fn split_buffered(self) -> Result<(Writes, Writes), Memory> {
        let alloc = self.alloc();
        let mut writes = self;
        if writes.is_buffered {
            writes.shown = None;
            return Ok((writes, Writes::new(alloc)));
        }
        split(alloc, writes.take_items())
    }

    /// The bytes with the writes.
    ///
    /// # Errors
    ///
    /// `Memory` where there is none left for them.
    pub fn shown_on(&mut self, base: &SharedBytes) -> Result<SharedBytes, Memory> {
        if self.is_empty() {
            self.shown = None;
            return base.share();
        }
        let alloc = self.alloc();
        let shown = match self.shown.take() {
            Some(shown) if shown.is_over(base) => shown.with_all(alloc, &self.items)?,
            _ => Shown::anew(alloc, base, &self.items)?,
        };
        let bytes = shown.share()?;
        self.shown = Some(shown);
        Ok(bytes)
    }
}

// The buffered ones of these writes, and the others.
fn split(alloc: Global, writes: VecDeque<Pending>) -> Result<(Writes, Writes), Memory> {
    let mut buffered = Writes::new(alloc);
    let mut others = Writes::new(alloc);
    for write in writes {
        if write.buffered {
            buffered.push(write)?;
        } else {
            others.push(write)?;
        }
    }
    Ok((buffered, others))
}

// What is shown after the write at this place was taken out of writes.
fn shown_without(alloc: Global, shown: Option<Shown>, place: usize, write: &Pending) -> Option<Shown> {
    match shown {
        Some(shown) => shown.without(alloc, place, write),
        None => None,
    }
}
