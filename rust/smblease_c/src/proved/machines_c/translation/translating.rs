// Made by tools/plain_rust from crates/machines_c/src/translation/translating.rt. Changes belong there.

use smblease::proved::client_versions::ClientVersions;

/// What a client knows of leases and durable opens of version 2.
#[derive(Debug)]
pub struct Translating {
    pub versions: ClientVersions,
}
