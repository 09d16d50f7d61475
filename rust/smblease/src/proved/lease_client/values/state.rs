// Made by tools/plain_rust from crates/lease_client/src/values/state.rt. Changes belong there.

use crate::proved::lease_state::LeaseState;

/// Whether both hold the same.
pub fn is_same(one: LeaseState, other: LeaseState) -> bool {
    one.caches_reads() == other.caches_reads()
        && one.caches_writes() == other.caches_writes()
        && one.caches_handles() == other.caches_handles()
}

/// Whether writes or handles go.
pub fn gives_up(old: LeaseState, new: LeaseState) -> bool {
    (old.caches_writes() && !new.caches_writes()) || (old.caches_handles() && !new.caches_handles())
}
