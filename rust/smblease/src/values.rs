//! What values have here in addition: Rust's own collections in and out, and rules by their names.
use crate::OutOfMemory;
use crate::proved::lease_state::{Bytes, Content, ContentFault, LeaseState, Order, Rise, Rules};
use alloc::vec::Vec;
use core::ops::BitOr;
use std::alloc::Global;
use std::ports::bitflags::Flags;
use std::prelude::Vec as Fallible;

impl From<Vec<u8>> for Bytes {
    /// The bytes of a vector; nothing is copied.
    fn from(bytes: Vec<u8>) -> Bytes {
        Bytes::new(Fallible::from(bytes))
    }
}

impl From<Bytes> for Vec<u8> {
    /// The bytes as a vector; nothing is copied.
    fn from(bytes: Bytes) -> Vec<u8> {
        bytes.into_vec().into_inner()
    }
}

impl TryFrom<&[u8]> for Bytes {
    type Error = OutOfMemory;

    /// A copy of these bytes.
    fn try_from(bytes: &[u8]) -> Result<Bytes, OutOfMemory> {
        Ok(Bytes::new(Fallible::from_slice(Global, bytes)?))
    }
}

impl TryFrom<Vec<u8>> for Content {
    type Error = ContentFault;

    /// A file of these bytes; nothing is copied.
    fn try_from(bytes: Vec<u8>) -> Result<Content, ContentFault> {
        Content::new(Fallible::from(bytes))
    }
}

impl TryFrom<&[u8]> for Content {
    type Error = ContentFault;

    /// A file with a copy of these bytes.
    fn try_from(bytes: &[u8]) -> Result<Content, ContentFault> {
        Content::new(Fallible::from_slice(Global, bytes)?)
    }
}

impl Rules {
    /// Requests of a client on a file have one turn after another, and a lease rises as far as other opens allow: the
    /// [`profile`](Rules::profile)'s.
    pub const fn by_client_as_free() -> Rules {
        Rules { order: Order::ByClient, rise: Rise::AsFree }
    }

    /// Requests of a client on a file have one turn after another, and a lease rises to all that was asked or not at all.
    pub const fn by_client_whole() -> Rules {
        Rules { order: Order::ByClient, rise: Rise::Whole }
    }

    /// Requests under one lease key have one turn after another, and a lease rises as far as other opens allow.
    pub const fn by_key_as_free() -> Rules {
        Rules { order: Order::ByKey, rise: Rise::AsFree }
    }

    /// Requests under one lease key have one turn after another, and a lease rises to all that was asked or not at all, as Windows
    /// and Samba were seen to do.
    pub const fn by_key_whole() -> Rules {
        Rules { order: Order::ByKey, rise: Rise::Whole }
    }
}

impl BitOr for LeaseState {
    type Output = LeaseState;

    /// What either caches.
    fn bitor(self, other: LeaseState) -> LeaseState {
        LeaseState::from_bits_retain(self.bits() | other.bits())
    }
}
