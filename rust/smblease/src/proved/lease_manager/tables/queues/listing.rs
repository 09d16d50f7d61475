// Made by tools/plain_rust from crates/lease_manager/src/tables/queues/listing.rt. Changes belong there.

use std::prelude::Vec;

use crate::proved::lease_manager::tables::queues::Queues;
use crate::proved::lease_manager::values::listed::ListedRequest;
use crate::proved::lease_manager::values::number::FileNo;
use crate::proved::lease_manager::values::request::Held;
use crate::proved::lease_state::Memory;
use std::alloc::Global;

impl Queues {
    /// What waits, for a listing, file by file, and on each in order of arrival.
    ///
    /// # Errors
    ///
    /// `Memory` where there is none left for the list.
    pub fn listed(&self, alloc: Global) -> Result<Vec<ListedRequest>, Memory> {
        let mut requests = Vec::new(alloc);
        for (file, queue) in self.by_file.iter() {
            list_on(&mut requests, *file, queue.as_slice())?;
        }
        Ok(requests)
    }
}

// What waits on the file comes onto the list.
fn list_on(requests: &mut Vec<ListedRequest>, file: FileNo, queue: &[Held]) -> Result<(), Memory> {
    for one in queue {
        requests.push(listed(file, one))?;
    }
    Ok(())
}

// A request that waits on the file, as it is listed.
fn listed(file: FileNo, one: &Held) -> ListedRequest {
    ListedRequest { file, client: one.client, tag: one.tag, ask: one.ask }
}
