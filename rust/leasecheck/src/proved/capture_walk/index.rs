// Made by tools/plain_rust from crates/capture_walk/src/index.rt. Changes belong there.

//! What is looked up of events.
use std::prelude::Vec;

use crate::proved::capture_walk::event::{Event, Lease, Sent};
use smblease::proved::lease_state::Memory;
use std::alloc::Global;
use std::collections::{BTreeMap, BTreeSet};

// The leases that are granted.
#[derive(Debug)]
pub(crate) struct Grants {
    // The files on which they are, in the order in which they come.
    files: Vec<u64>,
    // In the order in which they are granted first.
    by_file: BTreeMap<u64, Vec<Lease>>,
    all: BTreeSet<Lease>,
}

fn join(leases: &mut BTreeSet<Lease>, lease: Lease) -> Result<(), Memory> {
    leases.insert(lease)?;
    Ok(())
}

impl Grants {
    fn new(alloc: Global) -> Grants {
        Grants { files: Vec::new(alloc), by_file: BTreeMap::new(alloc), all: BTreeSet::new(alloc) }
    }

    // The leases on a file, which are out of the table then.
    fn take_out(&mut self, alloc: Global, file: u64) -> Result<Vec<Lease>, Memory> {
        match self.by_file.remove(&file) {
            Some(leases) => Ok(leases),
            None => {
                self.files.push(file)?;
                Ok(Vec::new(alloc))
            }
        }
    }

    // One more lease on its file.
    fn put(&mut self, alloc: Global, lease: Lease) -> Result<(), Memory> {
        let mut leases = self.take_out(alloc, lease.file)?;
        leases.push(lease)?;
        self.by_file.insert(lease.file, leases)?;
        Ok(())
    }

    // One more lease.
    fn add(&mut self, alloc: Global, lease: Lease) -> Result<(), Memory> {
        self.put(alloc, lease)?;
        join(&mut self.all, lease)
    }

    fn note(&mut self, alloc: Global, event: &Event) -> Result<(), Memory> {
        match event {
            Event::Granted(grant) if !self.all.contains(&grant.lease) => self.add(alloc, grant.lease),
            _ => Ok(()),
        }
    }
}

// From where on something is missing.
#[derive(Debug)]
pub(crate) struct Losses {
    clients: BTreeMap<u64, u64>,
    files: BTreeMap<u64, u64>,
}

fn earlier(found: Option<u64>, since: u64) -> u64 {
    match found {
        Some(other) if since < other => since,
        Some(other) => other,
        None => since,
    }
}

// The earliest position of those that come for a number.
fn note_earliest(table: &mut BTreeMap<u64, u64>, number: u64, since: u64) -> Result<(), Memory> {
    let found = match table.get(&number) {
        Some(other) => Some(*other),
        None => None,
    };
    table.insert(number, earlier(found, since))?;
    Ok(())
}

fn either_lost(found: Option<u64>, other: Option<u64>) -> Option<u64> {
    match other {
        Some(since) => Some(earlier(found, since)),
        None => found,
    }
}

impl Losses {
    fn new(alloc: Global) -> Losses {
        Losses { clients: BTreeMap::new(alloc), files: BTreeMap::new(alloc) }
    }

    fn at(&self, lease: Lease) -> Option<u64> {
        let client = self.clients.get(&lease.client).copied();
        let file = self.files.get(&lease.file).copied();
        either_lost(client, file)
    }

    fn note(&mut self, event: &Event) -> Result<(), Memory> {
        match event {
            Event::Lost(loss) => note_earliest(&mut self.clients, loss.client, loss.since),
            Event::Remade(one) => note_earliest(&mut self.files, one.file, one.since),
            _ => Ok(()),
        }
    }
}

/// What is looked up of events, so that nobody has to go over all of them: which leases are granted on which files, where the
/// events are that are about a lease, and what isn't shown anywhere.
#[derive(Debug)]
pub struct Index {
    grants: Grants,
    places: BTreeMap<Lease, Vec<usize>>,
    losses: Losses,
    // By connections, the greatest number up to which messages are shown to be taken.
    taken: BTreeMap<u64, u64>,
    // Of the messages that made them, of opens that are found to be gone.
    gone: BTreeSet<u64>,
}

fn lease_of(event: &Event) -> Option<Lease> {
    match event {
        Event::Granted(one) => Some(one.lease),
        Event::Broken(one) => Some(one.lease),
        Event::Acknowledged(one) => Some(one.lease),
        Event::Ended(one) => Some(one.lease),
        _ => None,
    }
}

fn note_taken(taken: &mut BTreeMap<u64, u64>, event: &Event) -> Result<(), Memory> {
    let Event::Taken(proof) = event else {
        return Ok(());
    };
    let greatest = match taken.get(&proof.connection) {
        Some(other) if proof.number < *other => *other,
        _ => proof.number,
    };
    taken.insert(proof.connection, greatest)?;
    Ok(())
}

fn note_gone(gone: &mut BTreeSet<u64>, event: &Event) -> Result<(), Memory> {
    if let Event::Gone(one) = event {
        gone.insert(one.opened)?;
    }
    Ok(())
}

// The places of a lease, which are out of the table then.
fn take_out(places: &mut BTreeMap<Lease, Vec<usize>>, alloc: Global, lease: Lease) -> Result<Vec<usize>, Memory> {
    match places.remove(&lease) {
        Some(found) => Ok(found),
        None => Ok(Vec::new(alloc)),
    }
}

fn add_place(places: &mut BTreeMap<Lease, Vec<usize>>, alloc: Global, lease: Lease, place: usize) -> Result<(), Memory> {
    let mut found = take_out(places, alloc, lease)?;
    found.push(place)?;
    places.insert(lease, found)?;
    Ok(())
}

fn note_place(places: &mut BTreeMap<Lease, Vec<usize>>, alloc: Global, event: &Event, place: usize) -> Result<(), Memory> {
    match lease_of(event) {
        Some(lease) => add_place(places, alloc, lease, place),
        None => Ok(()),
    }
}

impl Index {
    fn new(alloc: Global) -> Index {
        Index {
            grants: Grants::new(alloc),
            places: BTreeMap::new(alloc),
            losses: Losses::new(alloc),
            taken: BTreeMap::new(alloc),
            gone: BTreeSet::new(alloc),
        }
    }

    // Takes note of the next event, which is at this place.
    fn note(&mut self, alloc: Global, place: usize, event: &Event) -> Result<(), Memory> {
        self.grants.note(alloc, event)?;
        note_place(&mut self.places, alloc, event, place)?;
        self.losses.note(event)?;
        note_taken(&mut self.taken, event)?;
        note_gone(&mut self.gone, event)
    }

    /// That of events, which are in the order of the capture.
    ///
    /// # Errors
    ///
    /// `Memory` where there is none left.
    pub fn of(alloc: Global, events: &[Event]) -> Result<Index, Memory> {
        let mut index = Index::new(alloc);
        for (place, event) in events.iter().enumerate() {
            index.note(alloc, place, event)?;
        }
        Ok(index)
    }

    /// The numbers of the files on which leases are granted, in the order in which they come.
    pub fn files(&self) -> &[u64] {
        &self.grants.files
    }

    /// The leases on a file, in the order in which they are granted first.
    pub(crate) fn leases_on(&self, file: u64) -> &[Lease] {
        match self.grants.by_file.get(&file) {
            Some(leases) => leases.as_slice(),
            None => &[],
        }
    }

    /// Where the events are that are about a lease.
    pub(crate) fn places(&self, lease: Lease) -> &[usize] {
        match self.places.get(&lease) {
            Some(places) => places.as_slice(),
            None => &[],
        }
    }

    /// From which position on something of a lease's client may be missing, or its file may be another one.
    pub(crate) fn lost_since(&self, lease: Lease) -> Option<u64> {
        self.losses.at(lease)
    }

    /// Whether a message of the server may be shown to be taken.
    pub(crate) fn may_be_taken(&self, sent: Sent) -> bool {
        match self.taken.get(&sent.connection) {
            Some(greatest) => sent.number <= *greatest,
            None => false,
        }
    }

    /// Whether the open that a message made may be found to be gone.
    pub(crate) fn may_be_gone(&self, number: u64) -> bool {
        self.gone.contains(&number)
    }
}
