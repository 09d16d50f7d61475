// Made by tools/plain_rust from crates/lease_manager/src/tables/queue.rt. Changes belong there.

use std::prelude::Vec;

use crate::proved::lease_manager::values::number::{ClientNo, Tag};
use crate::proved::lease_manager::values::open::OpenEntry;
use crate::proved::lease_manager::values::request::Held;
use crate::proved::lease_state::Memory;
use std::alloc::Global;
use std::collections::BTreeSet;

/// What waits on a file, in order of arrival.
// docs/DECISIONS.md: "The front of a queue".
#[derive(Debug)]
pub struct Queue {
    /// At the front those that no longer wait.
    items: Vec<Held>,
    /// How many no longer wait, which is at most half of them.
    gone: usize,
    /// The clients of those that wait, and perhaps of some that no longer do.
    clients: BTreeSet<ClientNo>,
}

impl Queue {
    /// Nothing waits. Allocates nothing.
    pub fn new(alloc: Global) -> Queue {
        Queue { items: Vec::new(alloc), gone: 0, clients: BTreeSet::new(alloc) }
    }

    /// What waits.
    pub fn as_slice(&self) -> &[Held] {
        &self.items[self.gone..]
    }

    /// The request waits after the others.
    ///
    /// # Errors
    ///
    /// `Memory` where there is none left for it; nothing has changed then.
    pub fn push(&mut self, one: Held) -> Result<(), Memory> {
        self.clients.insert(one.client)?;
        self.items.push(one)?;
        Ok(())
    }

    /// The request at this place no longer waits.
    pub fn remove(&mut self, place: usize) {
        if place != 0 {
            let _one = self.items.remove(self.gone + place);
            return;
        }
        self.gone += 1;
        if self.gone > self.items.len() - self.gone {
            let_go(&mut self.items, self.gone);
            self.gone = 0;
        }
    }

    /// Whether a request of the client waits.
    pub fn has_of(&self, client: ClientNo) -> bool {
        self.clients.contains(&client) && is_any_of(self.as_slice(), client)
    }

    /// The requests of the client no longer wait.
    pub fn forget(&mut self, client: ClientNo) {
        if !self.clients.remove(&client) {
            return;
        }
        let_go(&mut self.items, self.gone);
        self.gone = 0;
        forget_of(&mut self.items, client);
    }

    /// The requests of the client under the tag no longer wait.
    pub fn withdraw(&mut self, client: ClientNo, tag: Tag) {
        let_go(&mut self.items, self.gone);
        self.gone = 0;
        forget_under(&mut self.items, client, tag);
    }

    /// The requests of the client under these tags no longer wait.
    pub fn leave(&mut self, client: ClientNo, tags: &[Tag]) {
        let_go(&mut self.items, self.gone);
        self.gone = 0;
        leave_under(&mut self.items, client, tags);
    }

    /// Whether a create waits under the key of the open.
    pub fn asks_with(&self, one: &OpenEntry) -> bool {
        one_asks_with(self.as_slice(), one)
    }
}

// Whether a request of the client is among these.
fn is_any_of(queue: &[Held], client: ClientNo) -> bool {
    queue.iter().any(|one| one.client == client)
}

// Whether a create is among these under the key of the open.
fn one_asks_with(queue: &[Held], one: &OpenEntry) -> bool {
    queue.iter().any(|held| held.asks_with(one))
}

// So many at the front are taken out.
fn let_go(items: &mut Vec<Held>, gone: usize) {
    drop(items.drain(..gone));
}

// The requests of the client no longer wait.
fn forget_of(queue: &mut Vec<Held>, client: ClientNo) {
    queue.retain(|one| one.client != client);
}

// The requests of the client under the tag no longer wait.
fn forget_under(queue: &mut Vec<Held>, client: ClientNo, tag: Tag) {
    queue.retain(|one| !(one.client == client && one.tag == tag));
}

// The requests of the client under these tags no longer wait.
fn leave_under(queue: &mut Vec<Held>, client: ClientNo, tags: &[Tag]) {
    queue.retain(|one| !(one.client == client && is_among(tags, one.tag)));
}

// Whether the tag is one of these.
fn is_among(tags: &[Tag], tag: Tag) -> bool {
    is_any(tags, tag)
}

fn is_any(tags: &[Tag], tag: Tag) -> bool {
    tags.iter().any(|other| tag == *other)
}
