// Made by tools/plain_rust from crates/machines_c/src/manager/decision.rt. Changes belong there.

use crate::proved::machines_c::handles::Outcome;
use crate::proved::machines_c::manager::handle::ManagerHandle;
use smblease::proved::lease_manager::{BreakNotice, ClientNo, CreateAnswer, Decision, Tag};
use smblease::proved::lease_state::LeaseKey;
use std::alloc::Global;

/// What a host is to do: `struct smblease_manager_decision`. What has no meaning for the kind is 0.
#[repr(C)]
#[derive(Clone, Copy, Debug, PartialEq, Eq)]
pub struct ManagerDecision {
    /// The number of the client.
    pub client: u64,
    /// The tag of the request.
    pub tag: u64,
    /// The FileId of the open.
    pub file_id: u64,
    /// The key of the lease.
    pub key: [u8; 16],
    /// 1 to 11: opened, goes on, closed, refused, waits, withdrawn, breaks, acknowledged, not
    /// acknowledged, ended, left behind.
    pub kind: u32,
    /// The NTSTATUS of an answer that refuses.
    pub status: u32,
    /// What the lease has, of opened and acknowledged: the bits of LeaseState.
    pub state: u32,
    /// What the lease had that breaks.
    pub current_state: u32,
    /// What it is broken to.
    pub new_state: u32,
    /// The open has a lease.
    pub has_lease: u8,
    /// A break of the lease is in progress.
    pub breaking: u8,
    /// The open is durable.
    pub durable: u8,
    /// The client has to acknowledge the break.
    pub ack_required: u8,
    /// The number of the timer that a break starts which has to be acknowledged.
    pub number: u64,
    /// Room for later versions: 0.
    pub reserved: [u8; 16],
}

impl ManagerDecision {
    // A decision for a client, about what it asked under a tag.
    fn of_kind(kind: u32, client: ClientNo, tag: Tag) -> ManagerDecision {
        ManagerDecision {
            client: client.0,
            tag: tag.0,
            file_id: 0,
            key: [0; 16],
            kind,
            status: 0,
            state: 0,
            current_state: 0,
            new_state: 0,
            has_lease: 0,
            breaking: 0,
            durable: 0,
            ack_required: 0,
            number: 0,
            reserved: [0; 16],
        }
    }

    // With what a create is answered.
    fn with_answer(mut self, answer: CreateAnswer) -> ManagerDecision {
        self.durable = u8::from(answer.durable);
        if let Some((key, state, in_progress)) = answer.lease {
            let bytes = key.0;
            self.key = bytes;
            self.state = state.to_wire();
            self.has_lease = 1;
            self.breaking = u8::from(in_progress);
        }
        self
    }

    // With the notice of a break.
    fn with_notice(mut self, notice: BreakNotice) -> ManagerDecision {
        let LeaseKey(key) = notice.key;
        self.key = key;
        self.current_state = notice.current.to_wire();
        self.new_state = notice.lowered.to_wire();
        self.ack_required = u8::from(notice.ack_required);
        self
    }

    // The fields that hold a decision.
    fn holding(decision: &Decision) -> ManagerDecision {
        let no_tag = Tag(0);
        match *decision {
            Decision::Opened { client, tag, file_id, answer } => {
                let opened = ManagerDecision { file_id: file_id.0, ..ManagerDecision::of_kind(1, client, tag) };
                opened.with_answer(answer)
            }
            Decision::GoesOn { client, tag } => ManagerDecision::of_kind(2, client, tag),
            Decision::Closed { client, tag } => ManagerDecision::of_kind(3, client, tag),
            Decision::Refused { client, tag, status } => {
                ManagerDecision { status: status.code(), ..ManagerDecision::of_kind(4, client, tag) }
            }
            Decision::Waits { client, tag } => ManagerDecision::of_kind(5, client, tag),
            Decision::Withdrawn { client, tag } => ManagerDecision::of_kind(6, client, tag),
            Decision::Breaks { client, notice } => ManagerDecision::of_kind(7, client, no_tag).with_notice(notice),
            Decision::Acknowledged { client, key, state } => {
                let LeaseKey(key) = key;
                ManagerDecision { key, state: state.to_wire(), ..ManagerDecision::of_kind(8, client, no_tag) }
            }
            Decision::NotAcknowledged { client, status } => {
                ManagerDecision { status: status.code(), ..ManagerDecision::of_kind(9, client, no_tag) }
            }
            Decision::Ended { file_id } => {
                ManagerDecision { file_id: file_id.0, ..ManagerDecision::of_kind(10, ClientNo(0), no_tag) }
            }
            Decision::LeftBehind { file_id } => {
                ManagerDecision { file_id: file_id.0, ..ManagerDecision::of_kind(11, ClientNo(0), no_tag) }
            }
        }
    }
}

// Writes the decision at the index into `out`, with the number of the timer that it starts.
fn tell(decisions: &[Decision], numbers: &[u64], index: usize, out: &mut ManagerDecision) -> Outcome {
    match decisions.get(index) {
        Some(decision) => {
            *out = ManagerDecision { number: *numbers.get(index).unwrap_or(&0), ..ManagerDecision::holding(decision) };
            Outcome::Done
        }
        None => Outcome::NoSuch,
    }
}

/// How many decisions the last call gave; 0 where there is no manager.
pub fn smblease_manager_decision_count(alloc: Global, manager: &mut ManagerHandle) -> usize {
    match manager.take(alloc) {
        None => 0,
        Some(managing) => {
            let count = managing.decisions.len();
            manager.put(alloc, managing);
            count
        }
    }
}

/// The decision of the last call at this index, from 0.
///
/// Returns 0; 3 where there is no manager; 4 where nothing has the index. Then nothing is written.
pub fn smblease_manager_decision_at(alloc: Global, manager: &mut ManagerHandle, index: usize, out: &mut ManagerDecision) -> u32 {
    match manager.take(alloc) {
        None => Outcome::Nothing.code(),
        Some(managing) => {
            let outcome = tell(&managing.decisions, &managing.numbers, index, out);
            manager.put(alloc, managing);
            outcome.code()
        }
    }
}

/// The functions of this module for C.
pub mod exported {
    use super::{ManagerDecision, ManagerHandle};

    /// [`super::smblease_manager_decision_count`] for C.
    #[unsafe(no_mangle)]
    pub extern "C" fn smblease_manager_decision_count(manager: &mut ManagerHandle) -> usize {
        super::smblease_manager_decision_count(std::alloc::Global, manager)
    }

    /// [`super::smblease_manager_decision_at`] for C.
    #[unsafe(no_mangle)]
    pub extern "C" fn smblease_manager_decision_at(manager: &mut ManagerHandle, index: usize, out: &mut ManagerDecision) -> u32 {
        super::smblease_manager_decision_at(std::alloc::Global, manager, index, out)
    }
}
