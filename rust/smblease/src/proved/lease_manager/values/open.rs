// Made by tools/plain_rust from crates/lease_manager/src/values/open.rt. Changes belong there.

use crate::proved::lease_manager::values::kept::KeptOpen;
use crate::proved::lease_manager::values::key::LeaseName;
use crate::proved::lease_manager::values::lease::HeldLease;
use crate::proved::lease_manager::values::number::{ClientNo, FileNo};
use crate::proved::lease_manager::values::owner::Owner;
use crate::proved::lease_state::{Access, FileId, LeaseKey, Share};

/// An open of a file (MS-SMB2 3.3.1.10). A durable open outlives its connection, and is then there
/// but not connected.
#[derive(Debug)]
pub struct OpenEntry {
    pub file_id: FileId,
    pub client: ClientNo,
    pub file: FileNo,
    /// `None` for an open without an RqLs context, which counts as a key of its own (profile).
    pub lease_key: Option<LeaseKey>,
    pub access: Access,
    pub share: Share,
    pub durable: bool,
    pub connected: bool,
}

/// An open, as a host lists it (MS-SMB2 3.3.1.10).
#[derive(Clone, Copy, Debug, PartialEq, Eq)]
pub struct ListedOpen {
    /// Its FileId.
    pub file_id: FileId,
    /// Its client.
    pub client: ClientNo,
    /// Its file.
    pub file: FileNo,
    /// Its lease key; `None` for an open that was asked for without one.
    pub lease_key: Option<LeaseKey>,
    /// What it may do.
    pub access: Access,
    /// What it lets others do.
    pub share: Share,
    /// It outlives its client's connection as long as its lease holds `HANDLE_CACHING`.
    pub durable: bool,
    /// Its client is connected. An open whose client isn't waits to be connected again.
    pub connected: bool,
}

impl OpenEntry {
    /// Whether the open has this key.
    pub fn has_key(&self, key: LeaseName) -> bool {
        match self.lease_key {
            Some(bytes) => key.client == self.client && key.bytes == bytes,
            None => false,
        }
    }

    /// Whether the open has the key, if this is one.
    pub fn has_own_key(&self, own: Option<LeaseName>) -> bool {
        match own {
            Some(key) => self.has_key(key),
            None => false,
        }
    }

    /// As a host lists it.
    pub fn listed(&self) -> ListedOpen {
        ListedOpen {
            file_id: self.file_id,
            client: self.client,
            file: self.file,
            lease_key: self.lease_key,
            access: self.access,
            share: self.share,
            durable: self.durable,
            connected: self.connected,
        }
    }

    /// Its client and its file.
    pub fn owner(&self) -> Owner {
        Owner { client: self.client, file: self.file }
    }

    /// The key of the open; `None` for an open without an RqLs context.
    pub fn key(&self) -> Option<LeaseName> {
        match self.lease_key {
            Some(bytes) => Some(LeaseName { client: self.client, bytes }),
            None => None,
        }
    }

    /// Whether the open is the client's connected open of this FileId.
    pub fn is_connected_as(&self, client: ClientNo, fid: FileId) -> bool {
        self.file_id == fid && self.client == client && self.connected
    }

    /// Whether a reconnect of this client under this key may name the open (MS-SMB2 3.3.5.9.7).
    pub fn awaits(&self, client: ClientNo, file: FileNo, own: Option<LeaseName>, fid: FileId) -> bool {
        match own {
            Some(key) => {
                self.file_id == fid && !self.connected && self.client == client && self.file == file && self.has_key(key)
            }
            None => false,
        }
    }

    /// Whether the open has the key and its client is away.
    pub fn is_left_open(&self, key: LeaseName) -> bool {
        self.has_key(key) && !self.connected
    }

    /// Whether the open has this FileId and its client is away.
    pub fn is_left_behind(&self, fid: FileId) -> bool {
        self.file_id == fid && !self.connected
    }

    /// Whether the open, which stands under this lease, outlives its client's connection (profile;
    /// MS-SMB2 3.3.7.1).
    pub fn outlives_connection(&self, lease: HeldLease) -> bool {
        self.durable && lease.state.caches_handles() && !lease.is_breaking()
    }

    /// What is kept of the open over a restart, where it stands under this lease; `None` where it doesn't outlive its client's
    /// connection.
    pub fn kept(&self, lease: HeldLease) -> Option<KeptOpen> {
        if !self.outlives_connection(lease) {
            return None;
        }
        match self.lease_key {
            Some(key) => Some(KeptOpen {
                file_id: self.file_id,
                client: self.client,
                file: self.file,
                key,
                access: self.access,
                share: self.share,
                state: lease.state,
            }),
            None => None,
        }
    }

    /// The open's client is there, or is away.
    pub fn set_connected(&mut self, connected: bool) {
        self.connected = connected;
    }
}
