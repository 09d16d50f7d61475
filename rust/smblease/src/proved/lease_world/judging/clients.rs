// Made by tools/plain_rust from crates/lease_world/src/judging/clients.rt. Changes belong there.

use std::prelude::Vec;

use crate::proved::lease_state::{ClientNo, Memory};
use crate::proved::lease_world::judging::client::ClientSeen;
use std::alloc::Global;

/// What a judge keeps of clients, by their numbers.
#[derive(Debug)]
pub struct Clients {
    seen: Vec<ClientSeen>,
}

impl Clients {
    /// Before any fact. Allocates nothing.
    pub fn new(alloc: Global) -> Clients {
        Clients { seen: Vec::new(alloc) }
    }

    /// What is kept of the client, to be looked at and changed in its place.
    ///
    /// # Errors
    ///
    /// `Memory` where there is none left for what is kept of the client.
    // docs/DECISIONS.md: "A judge's tables lend what they keep".
    pub fn get_mut(&mut self, client: ClientNo) -> Result<&mut ClientSeen, Memory> {
        reach(&mut self.seen, client)?;
        Ok(&mut self.seen[usize::from(client.0)])
    }
}

// Makes a place for what is kept of the client.
fn reach(clients: &mut Vec<ClientSeen>, client: ClientNo) -> Result<(), Memory> {
    let alloc = *clients.allocator();
    while clients.len() <= usize::from(client.0) {
        clients.push(ClientSeen::new(alloc))?;
    }
    Ok(())
}
