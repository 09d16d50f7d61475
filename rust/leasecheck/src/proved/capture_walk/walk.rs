// Made by tools/plain_rust from crates/capture_walk/src/walk.rt. Changes belong there.

use std::prelude::Vec;

use crate::proved::capture_walk::clients::Clients;
use crate::proved::capture_walk::creates::Creates;
use crate::proved::capture_walk::event::{Event, Remade};
use crate::proved::capture_walk::files::{Files, Place};
use crate::proved::capture_walk::latest::Latest;
use crate::proved::capture_walk::note::Seen;
use crate::proved::capture_walk::opens::{Open, may_end, open_given, place_of};
use crate::proved::capture_walk::renames::Renames;
use crate::proved::capture_walk::sides::Sides;
use crate::proved::capture_walk::telling::{push_ended, push_heard, push_remade, push_told};
use crate::proved::capture_walk::trees::Trees;
use smblease::proved::capture_wire::Guid;
use smblease::proved::lease_state::Memory;
use std::alloc::Global;

/// What the messages of a capture show, taken one by one.
#[derive(Debug)]
pub struct Walk {
    clients: Clients,
    sides: Sides,
    trees: Trees,
    creates: Creates,
    renames: Renames,
    files: Files,
    // The newest first.
    opens: Vec<Open>,
    events: Vec<Event>,
    latest: Latest,
}

impl Walk {
    /// Before any message. Allocates nothing.
    pub fn new(alloc: Global) -> Walk {
        Walk {
            clients: Clients::new(alloc),
            sides: Sides::new(alloc),
            trees: Trees::new(alloc),
            creates: Creates::new(alloc),
            renames: Renames::new(alloc),
            files: Files::new(alloc),
            opens: Vec::new(alloc),
            events: Vec::new(alloc),
            latest: Latest::new(alloc),
        }
    }

    // In the place of which file the message shows another one to be made, if it does.
    fn remade(&self, seen: &Seen<'_>) -> Option<Remade> {
        let given = seen.note.create_given()?;
        if !given.is_new {
            return None;
        }
        let create = self.creates.pending(seen.connection, given.id)?;
        let place = place_of(seen, given, create, &self.trees)?;
        Some(Remade { file: self.files.find(place)?, since: create.position })
    }

    // What the message opens, if it is a CREATE response; and which files have which names after it.
    fn name_files(&mut self, seen: &Seen<'_>) -> Result<Option<Open>, Memory> {
        let Some(given) = seen.note.create_given() else {
            self.files.note_change(self.renames.is_change(seen));
            return Ok(None);
        };
        open_given(&self.clients, &self.trees, &self.creates, &self.opens, &mut self.files, seen, given)
    }

    fn drop_opens(&mut self, seen: &Seen<'_>, made: Option<Open>) {
        if may_end(seen, made) {
            self.opens.retain(|one| !one.ends(seen, made));
        }
    }

    // The request or answer that the message is, what ends with it, and the file in whose place it makes another one.
    fn show_ends(
        &mut self,
        seen: &Seen<'_>,
        client: Option<u64>,
        made: Option<Open>,
        remade: Option<Remade>,
    ) -> Result<(), Memory> {
        push_heard(&mut self.events, seen, client, &self.opens)?;
        push_ended(&mut self.events, seen, made, &self.opens)?;
        push_remade(&mut self.events, remade)?;
        self.latest.take(&self.events)
    }

    // What the message shows besides.
    fn show_told(&mut self, seen: &Seen<'_>, client: Option<u64>, made: Option<Open>, since: u64) -> Result<(), Memory> {
        push_told(&mut self.events, seen, client, made, since, &self.opens, &self.latest)?;
        self.latest.take(&self.events)
    }

    // The opens after the message.
    fn change_opens(&mut self, seen: &Seen<'_>, made: Option<Open>) -> Result<(), Memory> {
        self.drop_opens(seen, made);
        if let Some(one) = made {
            self.opens.insert(0, one)?;
        }
        Ok(())
    }

    /// Takes the next message.
    ///
    /// # Errors
    ///
    /// `Memory` where there is none left; the walk then can't go on.
    pub fn take(&mut self, seen: &Seen<'_>) -> Result<(), Memory> {
        let remade = self.remade(seen);
        let made = self.name_files(seen)?;
        let client = self.clients.of(seen.connection);
        self.show_ends(seen, client, made, remade)?;
        let since = self.sides.missing_since(seen.connection);
        self.show_told(seen, client, made, since)?;
        self.change_opens(seen, made)?;
        self.clients.note(seen)?;
        self.sides.note(seen)?;
        self.trees.note(seen)?;
        self.renames.note(seen)?;
        self.creates.note(seen)
    }

    /// Where a file is, by its number.
    pub fn place_of(&self, file: u64) -> Option<Place<'_>> {
        self.files.place_of(file)
    }

    /// The ClientGuid of a client, by its number.
    pub fn guid_of(&self, client: u64) -> Option<Guid> {
        self.clients.guid_of(client)
    }

    /// What the messages so far show of leases, in the order of the capture.
    pub fn events(&self) -> &[Event] {
        &self.events
    }
}
