// Made by tools/plain_rust from crates/lease_manager/src/tables.rt. Changes belong there.

use crate::proved::lease_manager::tables::opens::Opens;
use crate::proved::lease_manager::tables::queues::Queues;
use crate::proved::lease_manager::tables::sets::Sets;
use crate::proved::lease_manager::tables::summaries::Summaries;
use crate::proved::lease_manager::tables::waiting::Waiting;
use crate::proved::lease_manager::values::key::LeaseName;
use crate::proved::lease_manager::values::lease::HeldLease;
use crate::proved::lease_manager::values::number::{ClientNo, FileNo};
use crate::proved::lease_state::{Access, FileId, LeaseKey, LeaseState, Memory, Rules, Share};
use std::alloc::Global;
use std::collections::BTreeSet;

mod changes;
pub mod file_summary;
mod files;
pub mod lease_marks;
mod listings;
mod looks;
pub mod multimap;
pub mod open_index;
pub mod opens;
pub mod parting;
pub mod queue;
pub mod queues;
mod restoring;
pub mod sets;
mod still;
pub mod summaries;
pub mod tally;
pub mod waiting;
mod wants;

/// What a manager knows.
// docs/DECISIONS.md: "The server's rules use its tables by methods".
#[derive(Debug)]
pub struct Tables {
    /// The rules that the manager was given.
    rules: Rules,
    /// The last number that a file can have.
    files: FileNo,
    queues: Queues,
    opens: Opens,
    /// Lease records and file summaries, which agree with the opens.
    summaries: Summaries,
    /// The clients that are connected.
    present: BTreeSet<ClientNo>,
    /// The keys of each client whose break timer ran out since it joined.
    expired: Sets<ClientNo, LeaseKey>,
    /// The FileId given last.
    last_id: u64,
    /// The requests that are known to wait still.
    waiting: Waiting,
    /// Whether it is known that no open of a lease that is breaking waits for its client. The rules keep it so: such opens are
    /// closed before their lease is broken, and an open of a lease that is breaking ends with its connection.
    settled: bool,
    alloc: Global,
}

impl Tables {
    /// The tables of a manager of these rules, where this is the last number of a file and nothing is open. Allocates nothing.
    pub fn new(alloc: Global, rules: Rules, files: FileNo) -> Tables {
        Tables {
            rules,
            files,
            queues: Queues::new(alloc),
            opens: Opens::new(alloc),
            summaries: Summaries::new(alloc),
            present: BTreeSet::new(alloc),
            expired: Sets::new(alloc),
            last_id: 0,
            waiting: Waiting::new(alloc),
            settled: true,
            alloc,
        }
    }

    /// The allocator of the tables.
    pub fn alloc(&self) -> Global {
        self.alloc
    }

    /// The rules that the manager was given.
    pub fn rules(&self) -> Rules {
        self.rules
    }

    /// The last number that a file can have.
    pub fn files(&self) -> FileNo {
        self.files
    }

    /// Whether the number is a file's.
    pub fn has_file(&self, file: FileNo) -> bool {
        file.is_file(self.files)
    }

    /// Whether the client's connection is there.
    pub fn is_present(&self, client: ClientNo) -> bool {
        self.present.contains(&client)
    }

    /// The client's connection comes, and its keys are no longer expired.
    ///
    /// # Errors
    ///
    /// `Memory` where there is none left for the list of connections.
    pub fn join(&mut self, client: ClientNo) -> Result<(), Memory> {
        self.present.insert(client)?;
        self.expired.clear(client);
        Ok(())
    }

    /// The lease of a key.
    pub fn lease(&self, key: LeaseName) -> HeldLease {
        self.summaries.lease(key)
    }

    /// Whether an open on the file has another key than the request.
    pub fn has_other_on(&self, own: Option<LeaseName>, file: FileNo) -> bool {
        self.summaries.has_other_on(own, file)
    }

    /// Whether an open on the file conflicts with this access and share.
    pub fn has_conflict_on(&self, file: FileNo, access: Access, share: Share) -> bool {
        self.summaries.has_conflict_on(file, access, share)
    }

    /// What may be granted of a wanted state.
    pub fn allowed(&self, own: Option<LeaseName>, file: FileNo, want: LeaseState) -> LeaseState {
        if self.has_other_on(own, file) { want.granted_form().without_write() } else { want.granted_form() }
    }

    /// The lowest disconnected open of the client on the file.
    pub fn kept(&self, client: ClientNo, file: FileNo) -> Option<FileId> {
        self.opens.first_left_by(client, file)
    }
}
