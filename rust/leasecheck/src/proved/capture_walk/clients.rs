// Made by tools/plain_rust from crates/capture_walk/src/clients.rt. Changes belong there.

use crate::proved::capture_walk::note::Seen;
use smblease::proved::capture_wire::Guid;
use smblease::proved::lease_state::Memory;
use std::alloc::Global;
use std::collections::BTreeMap;

/// Whose connections are.
#[derive(Debug)]
pub(crate) struct Clients {
    // The numbers of clients, by connections and by ClientGuids.
    by_connection: BTreeMap<u64, u64>,
    by_guid: BTreeMap<Guid, u64>,
    // Their ClientGuids, by their numbers.
    guids: BTreeMap<u64, Guid>,
}

impl Clients {
    /// Of no connection. Allocates nothing.
    pub(crate) fn new(alloc: Global) -> Clients {
        Clients { by_connection: BTreeMap::new(alloc), by_guid: BTreeMap::new(alloc), guids: BTreeMap::new(alloc) }
    }

    // The number of the client with a ClientGuid.
    fn number(&self, guid: Guid) -> Option<u64> {
        match self.by_guid.get(&guid) {
            Some(client) => Some(*client),
            None => None,
        }
    }

    /// The number of a connection's client, where it is known.
    pub(crate) fn of(&self, connection: u64) -> Option<u64> {
        match self.by_connection.get(&connection) {
            Some(client) => Some(*client),
            None => None,
        }
    }

    /// The ClientGuid of a client, by its number.
    pub(crate) fn guid_of(&self, client: u64) -> Option<Guid> {
        match self.guids.get(&client) {
            Some(guid) => Some(*guid),
            None => None,
        }
    }

    /// Takes note of the next message.
    pub(crate) fn note(&mut self, seen: &Seen<'_>) -> Result<(), Memory> {
        let Some(guid) = seen.note.negotiated() else {
            return Ok(());
        };
        let client = self.number(guid).unwrap_or(seen.number);
        self.by_connection.insert(seen.connection, client)?;
        self.by_guid.insert(guid, client)?;
        self.guids.insert(client, guid)?;
        Ok(())
    }
}
