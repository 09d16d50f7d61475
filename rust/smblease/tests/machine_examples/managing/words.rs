use smblease::proved::lease_manager::{Ask, BreakNotice, ClientNo, CreateAnswer, CreateAsk, Decision, FileNo, Manager, Tag};
use smblease::proved::lease_state::{Access, FileId, LeaseKey, LeaseState, Memory, Rules, Share};
use smblease_std::alloc::Global;

pub const KEY: LeaseKey = LeaseKey([0, 1, 2, 3, 4, 5, 6, 7, 8, 9, 10, 11, 12, 13, 14, 15]);

pub const LATER_KEY: LeaseKey = LeaseKey([15, 14, 13, 12, 11, 10, 9, 8, 7, 6, 5, 4, 3, 2, 1, 0]);

/// Clients and a file that no byte could number.
pub const ONE: ClientNo = ClientNo(1_000_000_000_001);

pub const TWO: ClientNo = ClientNo(1_000_000_000_002);

pub const FILE: FileNo = FileNo(18_446_744_073_709_551_615);

/// A create for reading and writing that shares both, under a key with a wanted state.
pub fn create(key: LeaseKey, want: u32, durable: bool) -> Ask {
    Ask::Create {
        file: FILE,
        access: Access::ReadWrite,
        share: Share::ReadWrite,
        ask: CreateAsk { lease: Some((key, LeaseState::from_wire(want))), durable, reconnect: None },
    }
}

/// A create that connects the open of this FileId again.
pub fn reconnect(key: LeaseKey, fid: u64) -> Ask {
    Ask::Create {
        file: FILE,
        access: Access::ReadWrite,
        share: Share::ReadWrite,
        ask: CreateAsk { lease: Some((key, LeaseState::from_wire(0))), durable: false, reconnect: Some(FileId(fid)) },
    }
}

/// The answer of a create: the open has this FileId, and its lease this state.
pub fn opened(client: ClientNo, tag: u64, fid: u64, key: LeaseKey, given: u32, durable: bool) -> Decision {
    Decision::Opened {
        client,
        tag: Tag(tag),
        file_id: FileId(fid),
        answer: CreateAnswer { lease: Some((key, LeaseState::from_wire(given), false)), durable },
    }
}

/// A notice that asks for an acknowledgment.
pub fn breaks(client: ClientNo, key: LeaseKey, current: u32, lowered: u32) -> Decision {
    Decision::Breaks {
        client,
        notice: BreakNotice {
            ack_required: true,
            key,
            current: LeaseState::from_wire(current),
            lowered: LeaseState::from_wire(lowered),
        },
    }
}

/// A manager of the profile's rules that both clients have joined.
pub fn joined(alloc: Global) -> Result<Manager, Memory> {
    let mut manager = Manager::new(alloc, Rules::profile());
    manager.join(ONE)?;
    manager.join(TWO)?;
    Ok(manager)
}

/// Whether a call gave these decisions, in this order.
pub fn gave(decisions: &[Decision], wanted: &[Decision]) -> bool {
    decisions == wanted
}
