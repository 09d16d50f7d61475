// Made by tools/plain_rust from crates/lease_manager/src/requests/question.rt. Changes belong there.

use crate::proved::lease_manager::requests::arrival::lane_of;
use crate::proved::lease_manager::tables::Tables;
use crate::proved::lease_manager::values::number::{ClientNo, FileNo, Tag};
use crate::proved::lease_manager::values::open::OpenEntry;
use crate::proved::lease_manager::values::request::{Ask, Held};
use crate::proved::lease_state::FileId;

/// The tag of a request that nobody made.
const NO_TAG: Tag = Tag(0);

impl Tables {
    /// Whether a read by this FileId of the client would be done at once: the open is there, connected, and may read, and no
    /// earlier request goes first.
    pub fn reads_at_once(&self, client: ClientNo, fid: FileId) -> bool {
        match self.connected_open(client, fid) {
            Some(one) => self.is_read_due(client, fid, one),
            None => false,
        }
    }

    /// Whether a write by this FileId of the client, within the limit of a file, would be done at once: the open is there,
    /// connected, and may write, no lease of another key on the file holds anything that it isn't about to lose, and no earlier
    /// request goes first.
    pub fn writes_at_once(&self, client: ClientNo, fid: FileId) -> bool {
        match self.connected_open(client, fid) {
            Some(one) => self.is_write_due(client, fid, one),
            None => false,
        }
    }

    // Whether the open may read, and a read by it waits behind none.
    fn is_read_due(&self, client: ClientNo, fid: FileId, one: &OpenEntry) -> bool {
        one.access.reads() && self.has_turn(client, Ask::Read { fid }, one.file)
    }

    // Whether the open may write, nothing hinders a write by it, and it waits behind none.
    fn is_write_due(&self, client: ClientNo, fid: FileId, one: &OpenEntry) -> bool {
        self.is_unhindered(one) && self.has_turn(client, Ask::Write { fid, fits: true }, one.file)
    }

    // Whether the open may write, and nothing hinders a write by it.
    fn is_unhindered(&self, one: &OpenEntry) -> bool {
        one.access.writes() && !self.is_hindered(one.key(), one.file)
    }

    // Whether the request about the file waits behind none there.
    fn has_turn(&self, client: ClientNo, ask: Ask, file: FileNo) -> bool {
        let one = Held { client, ask, lane: lane_of(self, client, ask), tag: NO_TAG };
        !one.is_behind(self.rules(), self.held(file))
    }
}
