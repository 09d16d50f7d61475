// Made by tools/plain_rust from crates/lease_client/src/machine/searches.rt. Changes belong there.

use crate::proved::lease_client::machine::Machine;
use crate::proved::lease_state::{FileId, FileNo, LeaseKey};

impl Machine {
    /// The file whose open has this FileId and waits for a Read.
    // docs/DECISIONS.md: "The file that a read reply is about".
    pub fn file_read_under(&self, file_id: FileId) -> Option<FileNo> {
        for index in 0..self.files() {
            let file = FileNo(index + 1);
            if self.is_read_under(file, file_id) {
                return Some(file);
            }
        }
        None
    }

    /// The file with a sent write of this number that isn't answered.
    pub fn file_with_sent(&self, number: u64) -> Option<FileNo> {
        for index in 0..self.files() {
            let file = FileNo(index + 1);
            if self.has_sent(file, number) {
                return Some(file);
            }
        }
        None
    }

    /// The file of this key.
    pub fn file_of_key(&self, key: LeaseKey) -> Option<FileNo> {
        for index in 0..self.files() {
            let file = FileNo(index + 1);
            if self.is_key_of(file, key) {
                return Some(file);
            }
        }
        None
    }

    fn is_key_of(&self, file: FileNo, key: LeaseKey) -> bool {
        self.key(file) == key
    }
}
