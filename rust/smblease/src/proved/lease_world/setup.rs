// Made by tools/plain_rust from crates/lease_world/src/setup.rt. Changes belong there.

use crate::proved::lease_facts::Setup;
use crate::proved::lease_state::Content;

// The most files and the most clients of a setup.
const FILES_LIMIT: usize = 8;

const CLIENTS_LIMIT: usize = 16;

/// Whether a run accepts the setup.
pub fn is_allowed(setup: &Setup) -> bool {
    do_allow(setup.files.as_slice(), setup.clients.as_slice())
}

// Whether a run accepts a setup of these files and clients.
fn do_allow(files: &[Content], clients: &[[u8; 16]]) -> bool {
    do_fit(files);
    if files.len() > FILES_LIMIT {
        return false;
    }
    if clients.len() > CLIENTS_LIMIT {
        return false;
    }
    are_apart(clients)
}

// The bytes of a content are within the limit of a file. Does nothing.
fn do_fit(files: &[Content]) {
    for place in 0..files.len() {
        let _bytes = files[place].bytes();
    }
}

// Whether no two are equal.
fn are_apart(guids: &[[u8; 16]]) -> bool {
    for place in 0..guids.len() {
        if has_guid(&guids[place + 1..], &guids[place]) {
            return false;
        }
    }
    true
}

fn has_guid(guids: &[[u8; 16]], guid: &[u8; 16]) -> bool {
    guids.iter().any(|other| guid == other)
}

/// Why there is no record of a run (profile).
#[derive(Clone, Copy, Debug, PartialEq, Eq, Hash)]
pub enum RunFault {
    /// There are too many files or clients, or two clients have one ClientGuid.
    BadSetup,
    /// There are more than 10,000 events.
    TooMany,
    /// There is no memory left.
    Memory,
}

impl std::fmt::Display for RunFault {
    fn fmt(&self, f: &mut std::fmt::Formatter<'_>) -> std::fmt::Result {
        f.write_str(match self {
            RunFault::BadSetup => "1 BadSetup",
            RunFault::TooMany => "2 TooMany",
            RunFault::Memory => "3 Memory",
        })
    }
}

impl std::error::Error for RunFault {}
