// Made by tools/plain_rust from crates/lease_manager/src/manager/questions.rt. Changes belong there.

use crate::proved::lease_manager::manager::Manager;
use crate::proved::lease_manager::values::number::ClientNo;
use crate::proved::lease_state::FileId;

impl Manager {
    /// Whether a read by this FileId of the client would be done at once (MS-SMB2 3.3.5.12): its open is connected and may read,
    /// and no earlier request goes first. Nothing changes, and nothing is asked: a host that is given `true` may do the read
    /// before it calls the manager again.
    pub fn may_read(&self, fid: FileId, client: ClientNo) -> bool {
        self.tables.reads_at_once(client, fid)
    }

    /// Whether a write by this FileId of the client that ends within the limit of a file would be done at once (MS-SMB2
    /// 3.3.5.13): its open is connected and may write, the leases of other keys on the file hold nothing or are breaking to
    /// nothing, and no earlier request goes first. Nothing changes, and nothing is asked: a host that is given `true` may do the
    /// write before it calls the manager again.
    pub fn may_write(&self, fid: FileId, client: ClientNo) -> bool {
        self.tables.writes_at_once(client, fid)
    }

    /// Where `may_read` or `may_write` is true, to ask for the read or the write, under whatever tag, decides that it goes on
    /// and nothing else, and opens, leases and what waits stay as they are. Where `may_read` is false a read that is asked is
    /// refused or waits, or nothing is decided, its client not being connected. Does nothing.
    pub fn law_of_questions(&self) {
        let _tables = &self.tables;
    }
}
