// Made by tools/plain_rust from crates/lease_manager/src/manager/always.rt. Changes belong there.

use crate::proved::lease_manager::manager::Manager;

impl Manager {
    /// What holds of every manager, whatever was asked of it (MS-SMB2 3.3.1.10, 3.3.1.12). Where a lease caches writes, every
    /// open on a file where its key has one has that key. No two opens on a file conflict. An open that isn't connected is
    /// durable, and its lease holds `HANDLE_CACHING` and isn't breaking. A state that a lease is broken to is a proper part of
    /// its state. The client of a connected open is connected, and so is the client of a request that waits. What waits where
    /// no earlier request goes first waits for another key's lease on its file to be acknowledged: a create for any that is
    /// breaking, a write for one that is breaking to something. So on a file of which no lease is breaking nothing waits. All
    /// that `lease_laws` says of a server that is sound and waits well holds of its server. Does nothing.
    pub fn laws(&self) {
        let _tables = &self.tables;
    }

    /// A client knows which of its opens last (MS-SMB2 3.3.5.9.6): one is durable only where the answer to its create says so,
    /// whatever its lease is granted later. Does nothing.
    pub fn law_of_durable_opens(&self) {
        let _tables = &self.tables;
    }

    /// A Break stands before the `GoesOn` that needed it, in the whole list of what any call decides (MS-SMB2 3.3.4.7). Without
    /// tags the decisions are what the server of the rules gives out; and wherever one says that a request goes on, it is a read,
    /// or a write for which each other key with an open on the file has given up what it cached: its Break to nothing is among
    /// the decisions before, or its opens were all closed meanwhile, or the call is its own acknowledgment of nothing. Does
    /// nothing.
    pub fn law_of_breaks(&self) {
        let _tables = &self.tables;
    }
}
