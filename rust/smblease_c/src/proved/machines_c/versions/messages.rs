// Made by tools/plain_rust from crates/machines_c/src/versions/messages.rt. Changes belong there.

use crate::proved::machines_c::handles::Outcome;
use crate::proved::machines_c::manager::handle::ManagerHandle;
use crate::proved::machines_c::versions::following::Following;
use crate::proved::machines_c::versions::handle::VersionsHandle;
use smblease::proved::lease_manager::{BreakNotice, CreateAnswer, Decision};
use smblease::proved::lease_versions::Carried;
use smblease::proved::lease_wire_v2::fill_create_reply_v2;
use std::alloc::Global;

/// What a host sends for a decision: `struct smblease_versions_message`.
#[repr(C)]
#[derive(Clone, Copy, Debug, PartialEq, Eq)]
pub struct MessageFields {
    /// The bytes, and zeros after them.
    pub bytes: [u8; 204],
    /// How many they are.
    pub length: u32,
}

impl MessageFields {
    // The create contexts of an answer.
    fn of_answer(carried: Carried, answer: &CreateAnswer, timeout: u32) -> MessageFields {
        let mut bytes = [0; 204];
        let length = fill_create_reply_v2(&carried.answer(answer, timeout), &mut bytes) as u32;
        MessageFields { bytes, length }
    }

    // The notification of a break.
    fn of_notice(carried: Carried, notice: &BreakNotice) -> MessageFields {
        let mut bytes = [0; 204];
        let notification = carried.notification(notice).encode();
        bytes[..notification.len()].copy_from_slice(&notification);
        MessageFields { bytes, length: 44 }
    }

    // What is sent for a decision that carries this.
    fn of(decision: &Decision, carried: Carried, timeout: u32) -> MessageFields {
        match decision {
            Decision::Opened { answer, .. } => MessageFields::of_answer(carried, answer, timeout),
            Decision::Breaks { notice, .. } => MessageFields::of_notice(carried, notice),
            _ => MessageFields { bytes: [0; 204], length: 0 },
        }
    }
}

impl Following {
    // A decision is followed.
    fn follow(&mut self, decision: &Decision, timeout: u32, out: &mut MessageFields) -> Outcome {
        match self.versions.follow(decision) {
            Ok(carried) => {
                *out = MessageFields::of(decision, carried, timeout);
                Outcome::Done
            }
            Err(_) => Outcome::NoMemory,
        }
    }
}

impl VersionsHandle {
    // The decision at the index is followed.
    fn follow(&mut self, alloc: Global, decisions: &[Decision], index: usize, timeout: u32, out: &mut MessageFields) -> Outcome {
        let Some(mut following) = self.take(alloc) else {
            return Outcome::Nothing;
        };
        let outcome = match decisions.get(index) {
            Some(decision) => following.follow(decision, timeout, out),
            None => Outcome::NoSuch,
        };
        self.put(alloc, following);
        outcome
    }
}

/// Follows the decision at this index, from 0, of the manager's last call: what the host sends for it. For an open these are the
/// create contexts of its answer (MS-SMB2 2.2.14.2), with this timeout in milliseconds where it is durable by `DH2Q`; for a break
/// its notification (2.2.23.2); for any other decision no bytes. Each decision of a call is followed once, in their order.
///
/// Returns 0; 1 where there is no memory, which is for an open alone; 3 where a handle holds nothing; 4 where nothing has the
/// index. But for 0 nothing is written, and nothing changed.
pub fn smblease_versions_follow(
    alloc: Global,
    versions: &mut VersionsHandle,
    manager: &mut ManagerHandle,
    index: usize,
    timeout: u32,
    out: &mut MessageFields,
) -> u32 {
    let Some(managing) = manager.take(alloc) else {
        return Outcome::Nothing.code();
    };
    let outcome = versions.follow(alloc, &managing.decisions, index, timeout, out);
    manager.put(alloc, managing);
    outcome.code()
}

/// The functions of this module for C.
pub mod exported {
    use super::{ManagerHandle, MessageFields, VersionsHandle};

    /// [`super::smblease_versions_follow`] for C.
    #[unsafe(no_mangle)]
    pub extern "C" fn smblease_versions_follow(
        versions: &mut VersionsHandle,
        manager: &mut ManagerHandle,
        index: usize,
        timeout: u32,
        out: &mut MessageFields,
    ) -> u32 {
        super::smblease_versions_follow(std::alloc::Global, versions, manager, index, timeout, out)
    }
}
