// Made by tools/plain_rust from crates/lease_manager/src/values/key.rt. Changes belong there.

use crate::proved::lease_manager::values::number::ClientNo;
use crate::proved::lease_state::LeaseKey;
use std::cmp::Ordering;

/// What names a lease (MS-SMB2 3.3.1.4, 3.3.5.9.8): its client and the client's LeaseKey.
#[derive(Clone, Copy, Debug)]
pub struct LeaseName {
    pub client: ClientNo,
    pub bytes: LeaseKey,
}

impl PartialEq for LeaseName {
    fn eq(&self, other: &LeaseName) -> bool {
        self.client == other.client && self.bytes == other.bytes
    }
}

impl Eq for LeaseName {}

/// The order in which leases are broken (profile): by their clients' numbers, then by their bytes.
impl Ord for LeaseName {
    fn cmp(&self, other: &LeaseName) -> Ordering {
        match self.client.cmp(&other.client) {
            Ordering::Equal => self.bytes.cmp(&other.bytes),
            apart => apart,
        }
    }
}

impl PartialOrd for LeaseName {
    fn partial_cmp(&self, other: &LeaseName) -> Option<Ordering> {
        Some(self.cmp(other))
    }
}

impl LeaseName {
    /// Whether both name one lease.
    pub(crate) fn is(self, other: LeaseName) -> bool {
        self.client == other.client && self.bytes == other.bytes
    }
}
