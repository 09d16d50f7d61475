// Made by tools/plain_rust from crates/lease_manager/src/values/extent.rt. Changes belong there.

use crate::proved::lease_manager::values::want::Wish;

/// What other keys on a file are to give up for something that no open of a client asks (own).
#[derive(Clone, Copy, Debug, PartialEq, Eq)]
pub enum Extent {
    /// Handle caching: what renames the file, removes it or changes its disposition.
    Handles,
    /// All that is cached: what changes its bytes or its size, or locks a part of it.
    All,
}

impl Extent {
    /// What it wishes of their leases.
    pub fn wish(self) -> Wish {
        match self {
            Extent::Handles => Wish::AnyHandles,
            Extent::All => Wish::Nothing,
        }
    }
}
