// Made by tools/plain_rust from crates/waiting_changes/src/change.rt. Changes belong there.

use crate::proved::lease_manager::{ClientNo, Extent, FileNo, Manager, Tag};
use crate::proved::lease_state::LeaseKey;

/// A change of a file that no open of a client asks for (own).
#[derive(Clone, Copy, Debug, PartialEq, Eq)]
pub struct Change {
    /// Who asks: a number of the host's own where no client does.
    pub client: ClientNo,
    /// By which it is answered.
    pub tag: Tag,
    /// The client's key that gives up nothing, if any.
    pub key: Option<LeaseKey>,
    pub file: FileNo,
    /// What other keys are to give up.
    pub extent: Extent,
}

impl Change {
    /// Whether nothing of another key is in its way.
    pub fn is_free(&self, manager: &Manager) -> bool {
        manager.is_given_up(self.client, self.key, self.file, self.extent)
    }

    // Whether it goes on at a try on the file.
    pub(crate) fn goes(&self, file: FileNo, manager: &Manager) -> bool {
        self.file == file && self.is_free(manager)
    }

    // Whether it is the client's under the tag, on this file.
    pub(crate) fn is_under(&self, file: FileNo, client: ClientNo, tag: Tag) -> bool {
        self.file == file && self.client == client && self.tag == tag
    }
}
