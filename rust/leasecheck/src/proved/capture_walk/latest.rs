// Made by tools/plain_rust from crates/capture_walk/src/latest.rt. Changes belong there.

use std::prelude::Vec;

use crate::proved::capture_walk::event::{Event, Lease, Said, Sent};
use crate::proved::capture_walk::opens::is_under;
use crate::proved::capture_walk::slices::from;
use smblease::proved::lease_state::Memory;
use std::alloc::Global;
use std::collections::BTreeMap;

/// What events say last of leases, so that nobody has to look back in them.
#[derive(Debug)]
pub(crate) struct Latest {
    // How many events were taken.
    count: usize,
    said: BTreeMap<Lease, Said>,
    broken: BTreeMap<Lease, Sent>,
    // The breaks of no open that is known.
    strays: Vec<Event>,
}

fn without_epoch(said: Said) -> Said {
    Said { epoch: None, ..said }
}

// Its epoch counts no more once a lease has ended.
fn end(said: &mut BTreeMap<Lease, Said>, lease: Lease) -> Result<(), Memory> {
    let Some(before) = said.get(&lease) else {
        return Ok(());
    };
    let ended = without_epoch(*before);
    said.insert(lease, ended)?;
    Ok(())
}

fn note_said(said: &mut BTreeMap<Lease, Said>, event: &Event) -> Result<(), Memory> {
    match event {
        Event::Granted(one) => {
            said.insert(one.lease, one.said())?;
        }
        Event::Broken(one) => {
            said.insert(one.lease, one.said())?;
        }
        Event::Ended(one) => end(said, one.lease)?,
        _ => {}
    }
    Ok(())
}

fn note_broken(broken: &mut BTreeMap<Lease, Sent>, event: &Event) -> Result<(), Memory> {
    if let Event::Broken(one) = event {
        broken.insert(one.lease, one.sent)?;
    }
    Ok(())
}

fn note_stray(strays: &mut Vec<Event>, event: &Event) -> Result<(), Memory> {
    if let Event::Stray(_) = event {
        strays.push(*event)?;
    }
    Ok(())
}

fn is_stray_of(lease: Lease, connection: u64, asked: u64, event: &Event) -> bool {
    match event {
        Event::Stray(one) => {
            is_under(Some(lease), one.client, one.key) && !(one.sent.connection == connection || one.sent.position < asked)
        }
        _ => false,
    }
}

fn has_stray(events: &[Event], lease: Lease, connection: u64, asked: u64) -> bool {
    events.iter().any(|event| is_stray_of(lease, connection, asked, event))
}

// The number after one.
fn next(count: usize) -> Result<usize, Memory> {
    count.checked_add(1).ok_or(Memory)
}

impl Latest {
    /// Before any event. Allocates nothing.
    pub(crate) fn new(alloc: Global) -> Latest {
        Latest { count: 0, said: BTreeMap::new(alloc), broken: BTreeMap::new(alloc), strays: Vec::new(alloc) }
    }

    /// What the server said last of a lease.
    pub(crate) fn said(&self, lease: Lease) -> Option<Said> {
        match self.said.get(&lease) {
            Some(said) => Some(*said),
            None => None,
        }
    }

    /// The last break of a lease.
    pub(crate) fn broken(&self, lease: Lease) -> Option<Sent> {
        match self.broken.get(&lease) {
            Some(sent) => Some(*sent),
            None => None,
        }
    }

    /// Whether a break of no open that was known may be of a lease that is granted on a connection, where that was asked for at a
    /// position.
    pub(crate) fn has_stray(&self, lease: Lease, connection: u64, asked: u64) -> bool {
        has_stray(&self.strays, lease, connection, asked)
    }

    fn note(&mut self, event: &Event) -> Result<(), Memory> {
        self.count = next(self.count)?;
        note_said(&mut self.said, event)?;
        note_broken(&mut self.broken, event)?;
        note_stray(&mut self.strays, event)
    }

    /// Takes note of the events that were added to those of which it took note.
    pub(crate) fn take(&mut self, events: &[Event]) -> Result<(), Memory> {
        for event in from(events, self.count) {
            self.note(event)?;
        }
        Ok(())
    }
}
