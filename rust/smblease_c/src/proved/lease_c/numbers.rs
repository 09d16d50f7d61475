// Made by tools/plain_rust from crates/lease_c/src/numbers.rt. Changes belong there.

use smblease::proved::lease_state::{Access, LeaseState, Share};

/// The access that the bits name; `None` where it neither reads nor writes.
pub(crate) fn access_of_bits(bits: u8) -> Option<Access> {
    match (bits & 1 == 1, bits & 2 == 2) {
        (false, false) => None,
        (true, false) => Some(Access::Read),
        (false, true) => Some(Access::Write),
        (true, true) => Some(Access::ReadWrite),
    }
}

/// The share that the bits name.
pub(crate) fn share_of_bits(bits: u8) -> Share {
    match (bits & 1 == 1, bits & 2 == 2) {
        (false, false) => Share::Nothing,
        (true, false) => Share::Read,
        (false, true) => Share::Write,
        (true, true) => Share::ReadWrite,
    }
}

/// Returns whether two opens of a file conflict (MS-SMB2 2.2.13, 3.3.5.9): whether the access of
/// one isn't within the share of the other. An open that neither reads nor writes conflicts with
/// none (profile).
pub fn smblease_opens_conflict(access: u8, share: u8, other_access: u8, other_share: u8) -> bool {
    match (access_of_bits(access), access_of_bits(other_access)) {
        (Some(one), Some(other)) => one.conflicts(share_of_bits(share), other, share_of_bits(other_share)),
        _ => false,
    }
}

/// Returns the state as a server grants it: itself, or 0 where it has no READ_CACHING (profile).
/// Bits that name nothing are dropped.
pub fn smblease_granted_form(state: u32) -> u32 {
    LeaseState::from_wire(state).granted_form().to_wire()
}

/// Returns whether a break of a lease of this state is to be acknowledged (MS-SMB2 3.3.4.7).
pub fn smblease_needs_acknowledgment(state: u32) -> bool {
    LeaseState::from_wire(state).needs_ack()
}

/// Returns whether all that the state caches is cached in the other too.
pub fn smblease_is_within(state: u32, other: u32) -> bool {
    LeaseState::from_wire(state).is_within(LeaseState::from_wire(other))
}

/// The functions of this module for C.
pub mod exported {

    /// [`super::smblease_opens_conflict`] for C.
    #[unsafe(no_mangle)]
    pub extern "C" fn smblease_opens_conflict(access: u8, share: u8, other_access: u8, other_share: u8) -> bool {
        super::smblease_opens_conflict(access, share, other_access, other_share)
    }

    /// [`super::smblease_granted_form`] for C.
    #[unsafe(no_mangle)]
    pub extern "C" fn smblease_granted_form(state: u32) -> u32 {
        super::smblease_granted_form(state)
    }

    /// [`super::smblease_needs_acknowledgment`] for C.
    #[unsafe(no_mangle)]
    pub extern "C" fn smblease_needs_acknowledgment(state: u32) -> bool {
        super::smblease_needs_acknowledgment(state)
    }

    /// [`super::smblease_is_within`] for C.
    #[unsafe(no_mangle)]
    pub extern "C" fn smblease_is_within(state: u32, other: u32) -> bool {
        super::smblease_is_within(state, other)
    }
}
