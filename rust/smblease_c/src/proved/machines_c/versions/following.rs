// Made by tools/plain_rust from crates/machines_c/src/versions/following.rt. Changes belong there.

use smblease::proved::lease_versions::Versions;

/// What is known of leases and durable opens of version 2.
#[derive(Debug)]
pub struct Following {
    pub versions: Versions,
}
